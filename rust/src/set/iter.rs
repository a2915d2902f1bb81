//! Iterators over a set.

use crate::errors::{AllocError, need};
use crate::iter::debug_by_name;
use crate::key::{Bytes, Key};
use crate::map::{self, Cursor};
use crate::parts::Proved;
use core::fmt;
use core::iter::FusedIterator;

debug_by_name!(Iter<'a, T>, IterPrefix<'a, T>, IntoIter<T>, Range<'a, T>);

/// An iterator over the elements of a set, in order. It makes each key.
pub struct Iter<'a, T>(map::Keys<'a, T, ()>);

impl<'a, T: Bytes> Iter<'a, T> {
    pub(crate) fn new(map: &'a Proved<T, ()>) -> Self {
        Iter(map::Keys::new(map))
    }

    /// Returns the next element, or an error if memory runs out.
    pub fn try_next(&mut self) -> Result<Option<T>, AllocError> {
        self.0.try_next()
    }
}

impl<T: Bytes> Iterator for Iter<'_, T> {
    type Item = T;

    fn next(&mut self) -> Option<Self::Item> {
        self.0.next()
    }

    fn size_hint(&self) -> (usize, Option<usize>) {
        self.0.size_hint()
    }
}

impl<T: Bytes> ExactSizeIterator for Iter<'_, T> {}
impl<T: Bytes> FusedIterator for Iter<'_, T> {}

/// An iterator over the elements of a set that begin with a prefix, in order. It makes each key.
pub struct IterPrefix<'a, T>(map::IterPrefix<'a, T, ()>);

impl<'a, T: Bytes> IterPrefix<'a, T> {
    pub(crate) fn new(map: &'a Proved<T, ()>, prefix: Key<'_, T>) -> Self {
        IterPrefix(map::IterPrefix::new(map, prefix))
    }

    /// Returns the next element, or an error if memory runs out.
    pub fn try_next(&mut self) -> Result<Option<T>, AllocError> {
        Ok(self.0.try_next()?.map(|entry| entry.0))
    }
}

impl<T: Bytes> Iterator for IterPrefix<'_, T> {
    type Item = T;

    fn next(&mut self) -> Option<Self::Item> {
        need(self.try_next())
    }
}

impl<T: Bytes> FusedIterator for IterPrefix<'_, T> {}

/// An iterator that owns the elements of a set, in order. It makes each key.
pub struct IntoIter<T>(map::IntoIter<T, ()>);

impl<T: Bytes> IntoIter<T> {
    pub(crate) fn new(map: Proved<T, ()>) -> Self {
        IntoIter(map::IntoIter::new(map))
    }

    /// Returns the next element. If memory runs out it returns an error, and the elements that are
    /// left are dropped.
    pub fn try_next(&mut self) -> Result<Option<T>, AllocError> {
        Ok(self.0.try_next()?.map(|entry| entry.0))
    }
}

impl<T: Bytes> Iterator for IntoIter<T> {
    type Item = T;

    fn next(&mut self) -> Option<Self::Item> {
        need(self.try_next())
    }

    fn size_hint(&self) -> (usize, Option<usize>) {
        self.0.size_hint()
    }
}

impl<T: Bytes> ExactSizeIterator for IntoIter<T> {}
impl<T: Bytes> FusedIterator for IntoIter<T> {}

/// An iterator over the elements of a range of keys, in order. It makes each key.
pub struct Range<'a, T>(map::Range<'a, T, ()>);

impl<'a, T: Bytes> Range<'a, T> {
    pub(crate) fn new(cursor: Cursor<'a, T, ()>) -> Self {
        Range(map::Range::new(cursor))
    }

    /// Returns the next element, or an error if memory runs out.
    pub fn try_next(&mut self) -> Result<Option<T>, AllocError> {
        Ok(self.0.try_next()?.map(|entry| entry.0))
    }
}

impl<T: Bytes> Iterator for Range<'_, T> {
    type Item = T;

    fn next(&mut self) -> Option<Self::Item> {
        need(self.try_next())
    }
}

impl<T: Bytes> FusedIterator for Range<'_, T> {}

/// The elements that are few edits from a key, in order: a cursor, which lends them, and an
/// iterator, which makes each key.
pub struct Within<'a, 'b, T: Bytes>(map::Within<'a, 'b, T, ()>);

impl<T: Bytes> fmt::Debug for Within<'_, '_, T> {
    fn fmt(&self, f: &mut fmt::Formatter<'_>) -> fmt::Result {
        self.0.fmt(f)
    }
}

impl<'a, 'b, T: Bytes> Within<'a, 'b, T> {
    pub(crate) fn new(map: &'a Proved<T, ()>, key: Key<'b, T>, limit: u32) -> Self {
        Within(map::Within::new(map, key, limit))
    }

    /// Advances to the next element, and returns whether there is one.
    pub fn advance(&mut self) -> bool {
        self.0.advance()
    }

    /// Does as `advance`. If memory runs out it returns an error, and the cursor has ended.
    pub fn try_advance(&mut self) -> Result<bool, AllocError> {
        self.0.try_advance()
    }

    /// Returns the element at which the cursor is, if it is at one.
    pub fn key(&self) -> Option<&T::Borrowed> {
        self.0.key()
    }

    /// Returns the next element, made, or an error if memory runs out.
    pub fn try_next(&mut self) -> Result<Option<T>, AllocError> {
        Ok(self.0.try_next()?.map(|entry| entry.0))
    }
}

impl<T: Bytes> Iterator for Within<'_, '_, T> {
    type Item = T;

    fn next(&mut self) -> Option<Self::Item> {
        need(self.try_next())
    }
}

impl<T: Bytes> FusedIterator for Within<'_, '_, T> {}
