//! Cursors, which lend keys in place of making them, and the iterators that are made of them.

use crate::errors::need;
use crate::iter::{debug_by_name, walk_under};
use crate::key::{BorrowedBytes, Bytes, Key, Owned};
use crate::parts::Proved;
use crate::proved::patricia_walks::near::NearCursor;
use crate::proved::patricia_walks::walk::{ReadCursor, Walk};
use crate::rt::alloc::{AllocError, Global};
use crate::rt::vec::Vec;
use core::fmt;
use core::iter::FusedIterator;
use core::ops::Bound;

debug_by_name!(Cursor<'a, K, V>, Range<'a, K, V>);

/// A cursor over the entries of a map, or of a part of it, in key order. It lends each key and
/// value in turn, and makes no key.
///
/// A new cursor is before the first entry: `advance` moves it there.
pub struct Cursor<'a, K, V: 'a> {
    cursor: ReadCursor<'a, Owned<K>, V>,
    // the key before which it ends
    end: Option<Vec<u8>>,
    // whether memory ran out when it was made, which the first step says
    is_refused: bool,
}

/// A walk, and the key before which it ends.
type Bounded<'a, K, V> = (Walk<'a, Owned<K>, V>, Option<Vec<u8>>);

/// The least key after a key: the key with a zero byte appended.
fn successor(key: &[u8]) -> Result<Vec<u8>, AllocError> {
    let mut next = Vec::with_capacity(Global, key.len() + 1)?;
    next.extend_from_slice(key)?;
    next.push_reserved(0);
    Ok(next)
}

impl<'a, K: Bytes, V: 'a> Cursor<'a, K, V> {
    /// A cursor over a walk, or one that has ended because memory ran out for it.
    fn over(map: &'a Proved<K, V>, bounded: Result<Bounded<'a, K, V>, AllocError>) -> Self {
        let is_refused = bounded.is_err();
        let ended = || (Walk::ended(Global, &map.tree.parts.arena), None);
        let (walk, end) = bounded.unwrap_or_else(|_| ended());
        Cursor {
            cursor: ReadCursor::new(walk),
            end,
            is_refused,
        }
    }

    pub(crate) fn all(map: &'a Proved<K, V>) -> Self {
        Cursor::over(map, Ok((map.iter(), None)))
    }

    pub(crate) fn under(map: &'a Proved<K, V>, prefix: Key<'_, K>) -> Self {
        Cursor::over(map, walk_under(map, prefix).map(|walk| (walk, None)))
    }

    pub(crate) fn between(map: &'a Proved<K, V>, start: Bound<&[u8]>, end: Bound<&[u8]>) -> Self {
        Cursor::over(map, walk_between(map, start, end))
    }

    /// Advances to the next entry, and returns whether there is one. After the last entry the
    /// cursor is at none.
    #[inline]
    pub fn advance(&mut self) -> bool {
        need(self.try_advance())
    }

    /// Does as `advance`. If memory runs out it returns an error, and the cursor has ended.
    #[inline]
    pub fn try_advance(&mut self) -> Result<bool, AllocError> {
        if self.is_refused {
            self.is_refused = false;
            return Err(AllocError);
        }
        let is_at_entry = self.cursor.advance()?;
        match (&self.end, self.cursor.key()) {
            (Some(end), Some(key)) if key >= end.as_slice() => {
                self.cursor.end();
                Ok(false)
            }
            _ => Ok(is_at_entry),
        }
    }

    /// Returns the key of the entry at which the cursor is, if it is at one. For texts this checks
    /// the bytes; `key_bytes` does not.
    #[inline]
    pub fn key(&self) -> Option<&K::Borrowed> {
        self.cursor.key().map(K::Borrowed::from_bytes)
    }

    /// Returns the bytes of the key of the entry at which the cursor is, if it is at one.
    #[inline]
    pub fn key_bytes(&self) -> Option<&[u8]> {
        self.cursor.key()
    }

    /// Returns the value of the entry at which the cursor is, if it is at one.
    #[inline]
    pub fn value(&self) -> Option<&'a V> {
        self.cursor.value()
    }

    /// Passes the entries whose keys begin with the first `len` bytes of the key, as far as these
    /// are whole items. The next `advance` moves to the first entry after them.
    pub fn skip(&mut self, len: usize) {
        self.cursor.skip(len);
    }

    /// Advances to the next entry and returns it, with its key made.
    pub fn next_entry(&mut self) -> Option<(K, &'a V)> {
        need(self.try_next_entry())
    }

    /// Does as `next_entry`. If memory runs out it returns an error, and the cursor has ended.
    pub fn try_next_entry(&mut self) -> Result<Option<(K, &'a V)>, AllocError> {
        if !self.try_advance()? {
            return Ok(None);
        }
        let (Some(bytes), Some(value)) = (self.cursor.key(), self.cursor.value()) else {
            return Ok(None);
        };
        match K::try_from_bytes(bytes) {
            Ok(key) => Ok(Some((key, value))),
            Err(error) => {
                self.cursor.end();
                Err(error)
            }
        }
    }
}

/// A walk from a start on, and the key before which it ends.
fn walk_between<'a, K: Bytes, V>(
    map: &'a Proved<K, V>,
    start: Bound<&[u8]>,
    end: Bound<&[u8]>,
) -> Result<Bounded<'a, K, V>, AllocError> {
    let parts = &map.tree.parts;
    let starting_at =
        |key: &[u8]| Walk::starting_at(Global, parts.value.as_ref(), &parts.arena, key);
    let walk = match start {
        Bound::Unbounded => map.iter(),
        Bound::Included(key) => starting_at(key)?,
        Bound::Excluded(key) => starting_at(&successor(key)?)?,
    };
    let end = match end {
        Bound::Unbounded => None,
        Bound::Included(key) => Some(successor(key)?),
        Bound::Excluded(key) => Some(Vec::from_slice(Global, key)?),
    };
    Ok((walk, end))
}

/// An iterator over the entries of a range of keys, in key order. It makes each key.
pub struct Range<'a, K, V: 'a> {
    cursor: Cursor<'a, K, V>,
}

impl<'a, K: Bytes, V: 'a> Range<'a, K, V> {
    pub(crate) fn new(cursor: Cursor<'a, K, V>) -> Self {
        Range { cursor }
    }

    /// Returns the next entry, or an error if memory runs out.
    pub fn try_next(&mut self) -> Result<Option<(K, &'a V)>, AllocError> {
        self.cursor.try_next_entry()
    }
}

impl<'a, K: Bytes, V: 'a> Iterator for Range<'a, K, V> {
    type Item = (K, &'a V);

    fn next(&mut self) -> Option<Self::Item> {
        need(self.try_next())
    }
}

impl<K: Bytes, V> FusedIterator for Range<'_, K, V> {}

/// The entries whose keys are few edits from a key, in key order: a cursor, which lends them, and
/// an iterator, which makes each key.
pub struct Within<'a, 'b, K: Bytes, V: 'a> {
    // none after a key could not be made
    cursor: Option<NearCursor<'a, Key<'b, K>, V>>,
}

impl<K: Bytes, V> fmt::Debug for Within<'_, '_, K, V> {
    fn fmt(&self, f: &mut fmt::Formatter<'_>) -> fmt::Result {
        f.debug_struct("Within").finish_non_exhaustive()
    }
}

impl<'a, 'b, K: Bytes, V: 'a> Within<'a, 'b, K, V> {
    pub(crate) fn new(map: &'a Proved<K, V>, key: Key<'b, K>, limit: u32) -> Self {
        Within {
            cursor: Some(map.within(key, limit)),
        }
    }

    /// Advances to the next entry, and returns whether there is one.
    pub fn advance(&mut self) -> bool {
        need(self.try_advance())
    }

    /// Does as `advance`. If memory runs out it returns an error, and the cursor has ended.
    pub fn try_advance(&mut self) -> Result<bool, AllocError> {
        match &mut self.cursor {
            Some(cursor) => cursor.advance(),
            None => Ok(false),
        }
    }

    /// Returns the key of the entry at which the cursor is, if it is at one.
    pub fn key(&self) -> Option<&K::Borrowed> {
        let bytes = self.cursor.as_ref()?.key();
        bytes.map(K::Borrowed::from_bytes)
    }

    /// Returns the value of the entry at which the cursor is, if it is at one.
    pub fn value(&self) -> Option<&'a V> {
        self.cursor.as_ref()?.value()
    }

    /// Returns the next entry with its key made. If memory runs out it returns an error, and the
    /// iterator has ended.
    pub fn try_next(&mut self) -> Result<Option<(K, &'a V)>, AllocError> {
        if !self.try_advance()? {
            return Ok(None);
        }
        let at = self.cursor.as_ref();
        let Some((bytes, value)) = at.and_then(|at| at.key().zip(at.value())) else {
            return Ok(None);
        };
        let key = K::try_from_bytes(bytes);
        if key.is_err() {
            self.cursor = None;
        }
        Ok(Some((key?, value)))
    }
}

impl<'a, K: Bytes, V: 'a> Iterator for Within<'a, '_, K, V> {
    type Item = (K, &'a V);

    fn next(&mut self) -> Option<Self::Item> {
        need(self.try_next())
    }
}

impl<K: Bytes, V> FusedIterator for Within<'_, '_, K, V> {}
