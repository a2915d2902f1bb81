//! Iterators over a map.
//!
//! Each has `try_next`, which returns an error if memory runs out. After an error an iterator has
//! ended.

use crate::errors::need;
use crate::key::{BorrowedBytes, Bytes, Key, Lent, Owned};
use crate::parts::{self, Proved};
use crate::proved::patricia_walks::along::{Along, AlongOwned};
use crate::proved::patricia_walks::into_walk::IntoWalk;
use crate::proved::patricia_walks::under::find_start;
use crate::proved::patricia_walks::value_walk::ValueWalk;
use crate::proved::patricia_walks::walk::Walk;
use crate::rt::alloc::{AllocError, Global};
use crate::rt::vec::Vec as ProvedVec;
use core::fmt;
use core::iter::FusedIterator;
use core::mem;

/// Debug of iterators, which names their types.
macro_rules! debug_by_name {
    ($($name:ident<$($parameter:tt),*>),* $(,)?) => {$(
        impl<$($parameter),*> fmt::Debug for $name<$($parameter),*> {
            fn fmt(&self, f: &mut fmt::Formatter<'_>) -> fmt::Result {
                f.debug_struct(stringify!($name)).finish_non_exhaustive()
            }
        }
    )*};
}
pub(crate) use debug_by_name;

debug_by_name!(
    Iter<'a, K, V>, IterPrefix<'a, K, V>, Keys<'a, K, V>, Values<'a, V>, IntoIter<K, V>,
    CommonPrefixValuesOwned<'a, K, V>,
);

impl<K: ?Sized, V> fmt::Debug for CommonPrefixesIter<'_, '_, K, V> {
    fn fmt(&self, f: &mut fmt::Formatter<'_>) -> fmt::Result {
        f.debug_struct("CommonPrefixesIter").finish_non_exhaustive()
    }
}

/// Takes a step of a walk, after which one item less is left, and none after an error.
#[inline(always)]
fn counted<T>(
    left: &mut usize,
    step: Option<Result<T, AllocError>>,
) -> Result<Option<T>, AllocError> {
    let item = step.transpose();
    match item {
        Ok(Some(_)) => *left -= 1,
        Ok(None) => {}
        Err(_) => *left = 0,
    }
    item
}

/// An iterator over the entries of a map, in key order. It makes each key.
pub struct Iter<'a, K, V: 'a> {
    walk: Walk<'a, Owned<K>, V>,
    left: usize,
}

impl<'a, K: Bytes, V: 'a> Iter<'a, K, V> {
    pub(crate) fn new(map: &'a Proved<K, V>) -> Self {
        Iter {
            walk: map.iter(),
            left: map.len(),
        }
    }

    /// Returns the next entry, or an error if memory runs out.
    #[inline]
    pub fn try_next(&mut self) -> Result<Option<(K, &'a V)>, AllocError> {
        let entry = counted(&mut self.left, self.walk.next())?;
        Ok(entry.map(|(key, value)| (key.0, value)))
    }
}

impl<'a, K: Bytes, V: 'a> Iterator for Iter<'a, K, V> {
    type Item = (K, &'a V);

    #[inline]
    fn next(&mut self) -> Option<Self::Item> {
        need(self.try_next())
    }

    fn size_hint(&self) -> (usize, Option<usize>) {
        (self.left, Some(self.left))
    }
}

impl<K: Bytes, V> ExactSizeIterator for Iter<'_, K, V> {}
impl<K: Bytes, V> FusedIterator for Iter<'_, K, V> {}

/// An iterator over the entries of a map whose keys begin with a prefix, in key order. It makes
/// each key.
pub struct IterPrefix<'a, K, V: 'a> {
    walk: Walk<'a, Owned<K>, V>,
    // whether memory ran out when it was made, which the first step says
    is_refused: bool,
}

impl<'a, K: Bytes, V: 'a> IterPrefix<'a, K, V> {
    pub(crate) fn new(map: &'a Proved<K, V>, prefix: Key<'_, K>) -> Self {
        let walk = walk_under(map, prefix);
        IterPrefix {
            is_refused: walk.is_err(),
            walk: walk.unwrap_or_else(|_| Walk::ended(Global, &map.tree.parts.arena)),
        }
    }

    /// Returns the next entry, or an error if memory runs out.
    #[inline]
    pub fn try_next(&mut self) -> Result<Option<(K, &'a V)>, AllocError> {
        if mem::take(&mut self.is_refused) {
            return Err(AllocError);
        }
        let entry = self.walk.next().transpose()?;
        Ok(entry.map(|(key, value)| (key.0, value)))
    }
}

/// A walk over the entries under a prefix, which does not keep it.
pub(crate) fn walk_under<'a, K: Bytes, V>(
    map: &'a Proved<K, V>,
    prefix: Key<'_, K>,
) -> Result<Walk<'a, Owned<K>, V>, AllocError> {
    if prefix.get().is_empty() {
        return Ok(map.iter());
    }
    let arena = &map.tree.parts.arena;
    match find_start(arena, prefix) {
        Some(start) => {
            let front = &prefix.get().as_bytes()[..start.front];
            Walk::below(Global, arena, front, start.top)
        }
        None => Ok(Walk::ended(Global, arena)),
    }
}

impl<'a, K: Bytes, V: 'a> Iterator for IterPrefix<'a, K, V> {
    type Item = (K, &'a V);

    #[inline]
    fn next(&mut self) -> Option<Self::Item> {
        need(self.try_next())
    }
}

impl<K: Bytes, V> FusedIterator for IterPrefix<'_, K, V> {}

/// An iterator over the keys of a map, in order. It makes each key.
pub struct Keys<'a, K, V: 'a>(Iter<'a, K, V>);

impl<'a, K: Bytes, V: 'a> Keys<'a, K, V> {
    pub(crate) fn new(map: &'a Proved<K, V>) -> Self {
        Keys(Iter::new(map))
    }

    /// Returns the next key, or an error if memory runs out.
    #[inline]
    pub fn try_next(&mut self) -> Result<Option<K>, AllocError> {
        Ok(self.0.try_next()?.map(|entry| entry.0))
    }
}

impl<'a, K: Bytes, V: 'a> Iterator for Keys<'a, K, V> {
    type Item = K;

    #[inline]
    fn next(&mut self) -> Option<Self::Item> {
        need(self.try_next())
    }

    fn size_hint(&self) -> (usize, Option<usize>) {
        self.0.size_hint()
    }
}

impl<K: Bytes, V> ExactSizeIterator for Keys<'_, K, V> {}
impl<K: Bytes, V> FusedIterator for Keys<'_, K, V> {}

/// An iterator over the values of a map, in key order.
pub struct Values<'a, V: 'a> {
    walk: ValueWalk<'a, V>,
    left: usize,
}

impl<'a, V: 'a> Values<'a, V> {
    pub(crate) fn new<K: Bytes>(map: &'a Proved<K, V>) -> Self {
        Values {
            walk: map.tree.value_walk(),
            left: parts::len(map),
        }
    }

    /// Returns the next value, or an error if memory runs out for the siblings that wait.
    #[inline]
    pub fn try_next(&mut self) -> Result<Option<&'a V>, AllocError> {
        counted(&mut self.left, self.walk.next_value())
    }
}

impl<'a, V: 'a> Iterator for Values<'a, V> {
    type Item = &'a V;

    #[inline]
    fn next(&mut self) -> Option<Self::Item> {
        need(self.try_next())
    }

    fn size_hint(&self) -> (usize, Option<usize>) {
        (self.left, Some(self.left))
    }
}

impl<V> ExactSizeIterator for Values<'_, V> {}
impl<V> FusedIterator for Values<'_, V> {}

/// An iterator that owns the entries of a map, in key order. It makes each key.
pub struct IntoIter<K, V> {
    walk: IntoWalk<Owned<K>, V>,
    left: usize,
}

impl<K: Bytes, V> IntoIter<K, V> {
    pub(crate) fn new(map: Proved<K, V>) -> Self {
        IntoIter {
            left: map.len(),
            walk: map.into_iter(),
        }
    }

    /// Returns the next entry. If memory runs out it returns an error, and the entries that are
    /// left are dropped.
    #[inline]
    pub fn try_next(&mut self) -> Result<Option<(K, V)>, AllocError> {
        let entry = counted(&mut self.left, self.walk.next())?;
        Ok(entry.map(|(key, value)| (key.0, value)))
    }
}

impl<K: Bytes, V> Iterator for IntoIter<K, V> {
    type Item = (K, V);

    #[inline]
    fn next(&mut self) -> Option<Self::Item> {
        need(self.try_next())
    }

    fn size_hint(&self) -> (usize, Option<usize>) {
        (self.left, Some(self.left))
    }
}

impl<K: Bytes, V> ExactSizeIterator for IntoIter<K, V> {}
impl<K: Bytes, V> FusedIterator for IntoIter<K, V> {}

/// An iterator over the entries whose keys are prefixes of a key, the shortest first. It does not
/// allocate.
pub struct CommonPrefixesIter<'a, 'b, K: ?Sized, V> {
    // an entry's key is a part of the key, and none is made: so any kind of owned keys will do
    along: Along<'a, Lent<'b, K, ProvedVec<u8>>, V>,
}

impl<'a, 'b, K: ?Sized + BorrowedBytes, V> CommonPrefixesIter<'a, 'b, K, V> {
    pub(crate) fn new<T>(map: &'a Proved<T, V>, key: &'b K) -> Self {
        let parts = &map.tree.parts;
        let along = Along::new(parts.value.as_ref(), &parts.arena, Lent::new(key));
        CommonPrefixesIter { along }
    }

    /// Returns the next value.
    pub(crate) fn next_value(&mut self) -> Option<&'a V> {
        self.along.next_value()
    }
}

impl<'a, 'b, K, V> Iterator for CommonPrefixesIter<'a, 'b, K, V>
where
    K: 'b + ?Sized + BorrowedBytes,
{
    type Item = (&'b K, &'a V);

    fn next(&mut self) -> Option<Self::Item> {
        self.along.next().map(|(key, value)| (key.get(), value))
    }
}

impl<'b, K: 'b + ?Sized + BorrowedBytes, V> FusedIterator for CommonPrefixesIter<'_, 'b, K, V> {}

/// An iterator over the values whose keys are prefixes of a key that it owns.
pub(crate) struct CommonPrefixValuesOwned<'a, K, V> {
    along: AlongOwned<'a, Owned<K>, V>,
}

impl<'a, K: Bytes, V> CommonPrefixValuesOwned<'a, K, V> {
    pub(crate) fn new(map: &'a Proved<K, V>, key: K) -> Self {
        CommonPrefixValuesOwned {
            along: map.common_prefix_values_owned(Owned(key)),
        }
    }
}

impl<'a, K: Bytes, V> Iterator for CommonPrefixValuesOwned<'a, K, V> {
    type Item = &'a V;

    fn next(&mut self) -> Option<Self::Item> {
        self.along.next()
    }
}
