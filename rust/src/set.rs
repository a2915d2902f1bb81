//! A set of keys that share their common prefixes, and its iterators.

mod iter;
mod traits;
mod whole;

pub use iter::{IntoIter, Iter, IterPrefix, Range, Within};

use crate::errors::{
    AllocError, DecodeError, LoadError, NotInOrder, TooDeep, WireError, decoded, encoded, loaded,
    need,
};
use crate::key::{BorrowedBytes, Bytes, Key, Owned};
use crate::map::{Cursor, GenericPatriciaMap};
use crate::parts;
use crate::proved::patricia_tree::set::GenericPatriciaSet as ProvedSet;
use core::mem;
use core::ops::{Bound, RangeBounds};
use memory::string::String;
use memory::vec::Vec;

/// A set of byte strings.
pub type PatriciaSet = GenericPatriciaSet<Vec<u8>>;

/// A set of texts.
pub type StringPatriciaSet = GenericPatriciaSet<String>;

/// A set of keys of one kind, in the order of their bytes.
///
/// ```
/// use patricia::StringPatriciaSet;
///
/// let mut set = StringPatriciaSet::new();
/// assert!(set.insert("rust"));
/// assert!(!set.insert("rust"));
/// assert_eq!(set.get_longest_common_prefix("rusty"), Some("rust"));
/// ```
pub struct GenericPatriciaSet<T> {
    pub(crate) set: ProvedSet<Owned<T>>,
}

impl<T> GenericPatriciaSet<T> {
    /// Makes an empty set. It does not allocate.
    pub fn new() -> Self {
        GenericPatriciaSet {
            set: ProvedSet {
                map: parts::empty(),
            },
        }
    }

    /// Returns the number of elements, in constant time.
    pub fn len(&self) -> usize {
        parts::len(&self.set.map)
    }

    /// Returns whether there is no element, in constant time.
    pub fn is_empty(&self) -> bool {
        self.len() == 0
    }

    /// Removes all elements.
    pub fn clear(&mut self) {
        drop(mem::take(self));
    }

    /// The set of the keys of a map.
    fn of(map: GenericPatriciaMap<T, ()>) -> Self {
        GenericPatriciaSet {
            set: ProvedSet { map: map.map },
        }
    }

    /// Moves the elements to a map, lets a closure change it, and moves them back, also if the
    /// closure panics.
    fn as_map<R>(&mut self, f: impl FnOnce(&mut GenericPatriciaMap<T, ()>) -> R) -> R {
        struct Back<'a, T> {
            set: &'a mut GenericPatriciaSet<T>,
            map: GenericPatriciaMap<T, ()>,
        }
        impl<T> Drop for Back<'_, T> {
            fn drop(&mut self) {
                mem::swap(&mut self.set.set.map, &mut self.map.map);
            }
        }
        let map = mem::replace(&mut self.set.map, parts::empty());
        f(&mut Back {
            set: self,
            map: GenericPatriciaMap { map },
        }
        .map)
    }
}

impl<T: Bytes> GenericPatriciaSet<T> {
    /// Returns whether the set has the element.
    pub fn contains<U: AsRef<T::Borrowed>>(&self, value: U) -> bool {
        self.set.contains(Key::<T>::new(value.as_ref()))
    }

    /// Returns the longest element that is a prefix of a key.
    ///
    /// ```
    /// use patricia::PatriciaSet;
    ///
    /// let set = PatriciaSet::from_iter(["foo", "foobar"]);
    /// assert_eq!(set.get_longest_common_prefix("fooba"), Some(b"foo".as_slice()));
    /// assert_eq!(set.get_longest_common_prefix("fo"), None);
    /// ```
    pub fn get_longest_common_prefix<'a, U>(&self, value: &'a U) -> Option<&'a T::Borrowed>
    where
        U: ?Sized + AsRef<T::Borrowed>,
    {
        let part = self
            .set
            .get_longest_common_prefix(Key::<T>::new(value.as_ref()))?;
        Some(part.get())
    }

    /// Returns the length in bytes of the longest prefix of the key, in whole items, that is also a
    /// prefix of some element.
    pub fn longest_common_prefix_len<U>(&self, value: &U) -> usize
    where
        U: ?Sized + AsRef<T::Borrowed>,
    {
        self.set
            .longest_common_prefix_len(Key::<T>::new(value.as_ref()))
    }

    /// Returns the elements that are prefixes of a key, the shortest first. It does not allocate.
    pub fn common_prefixes<'a, 'b, U>(
        &'a self,
        value: &'b U,
    ) -> impl Iterator<Item = &'b T::Borrowed>
    where
        U: ?Sized + AsRef<T::Borrowed>,
        <T as Bytes>::Borrowed: 'b,
    {
        crate::map::CommonPrefixesIter::new(&self.set.map, value.as_ref()).map(|entry| entry.0)
    }

    /// Inserts an element, and returns whether it is new.
    pub fn insert<U: AsRef<T::Borrowed>>(&mut self, value: U) -> bool {
        need(self.try_insert(value))
    }

    /// Does as `insert`. If memory runs out, the set is unchanged. It never does for an element
    /// that is there, nor for the empty key.
    pub fn try_insert<U: AsRef<T::Borrowed>>(&mut self, value: U) -> Result<bool, AllocError> {
        self.set.insert(Key::<T>::new(value.as_ref()))
    }

    /// Removes an element, and returns whether it was there.
    pub fn remove<U: AsRef<T::Borrowed>>(&mut self, value: U) -> bool {
        need(self.try_remove(value))
    }

    /// Does as `remove`. If memory runs out for the label of two joined nodes, the set is
    /// unchanged.
    pub fn try_remove<U: AsRef<T::Borrowed>>(&mut self, value: U) -> Result<bool, AllocError> {
        self.set.remove(Key::<T>::new(value.as_ref()))
    }

    /// Removes the elements that begin with the prefix, and returns them as a set.
    pub fn split_by_prefix<U: AsRef<T::Borrowed>>(&mut self, prefix: U) -> Self {
        need(self.try_split_by_prefix(prefix))
    }

    /// Does as `split_by_prefix`. If memory runs out, the set is unchanged.
    pub fn try_split_by_prefix<U>(&mut self, prefix: U) -> Result<Self, AllocError>
    where
        U: AsRef<T::Borrowed>,
    {
        let set = self.set.split_by_prefix(Key::<T>::new(prefix.as_ref()))?;
        Ok(GenericPatriciaSet { set })
    }

    /// Returns the number of elements that begin with the prefix.
    pub fn count_prefix<U: AsRef<T::Borrowed>>(&self, prefix: U) -> usize {
        need(self.try_count_prefix(prefix))
    }

    /// Does as `count_prefix`. Memory is needed only if some element has more than 64 bytes after
    /// the prefix.
    pub fn try_count_prefix<U>(&self, prefix: U) -> Result<usize, AllocError>
    where
        U: AsRef<T::Borrowed>,
    {
        self.set.count_prefix(Key::<T>::new(prefix.as_ref()))
    }

    /// Removes the elements that begin with the prefix, and returns how many there were.
    pub fn remove_prefix<U: AsRef<T::Borrowed>>(&mut self, prefix: U) -> usize {
        need(self.try_remove_prefix(prefix))
    }

    /// Does as `remove_prefix`. If memory runs out, the set is unchanged.
    pub fn try_remove_prefix<U>(&mut self, prefix: U) -> Result<usize, AllocError>
    where
        U: AsRef<T::Borrowed>,
    {
        self.set.remove_prefix(Key::<T>::new(prefix.as_ref()))
    }

    /// Returns the elements, in order.
    pub fn iter(&self) -> Iter<'_, T> {
        Iter::new(&self.set.map)
    }

    /// Returns a cursor over the elements, in order. It makes no key, and so is faster than `iter`.
    pub fn cursor(&self) -> Cursor<'_, T, ()> {
        Cursor::all(&self.set.map)
    }

    /// Returns a cursor over the elements that begin with the prefix.
    pub fn cursor_prefix(&self, prefix: &T::Borrowed) -> Cursor<'_, T, ()> {
        Cursor::under(&self.set.map, Key::<T>::new(prefix))
    }

    /// Returns a cursor over the elements from a key on, which need not be there.
    pub fn cursor_from(&self, key: &T::Borrowed) -> Cursor<'_, T, ()> {
        Cursor::between(
            &self.set.map,
            Bound::Included(key.as_bytes()),
            Bound::Unbounded,
        )
    }

    /// Returns a cursor over the elements of a range of keys.
    pub fn cursor_range<U, R>(&self, range: R) -> Cursor<'_, T, ()>
    where
        U: AsRef<T::Borrowed>,
        R: RangeBounds<U>,
    {
        let start = range.start_bound().map(|key| key.as_ref().as_bytes());
        let end = range.end_bound().map(|key| key.as_ref().as_bytes());
        Cursor::between(&self.set.map, start, end)
    }

    /// Returns the elements of a range of keys, in order. It is empty if the end comes before the
    /// start.
    pub fn range<U, R>(&self, range: R) -> Range<'_, T>
    where
        U: AsRef<T::Borrowed>,
        R: RangeBounds<U>,
    {
        Range::new(self.cursor_range(range))
    }

    /// Returns the elements that are at most `limit` edits from the key, in order. An edit inserts,
    /// deletes or replaces an item.
    pub fn within<'b, U>(&self, key: &'b U, limit: u32) -> Within<'_, 'b, T>
    where
        U: ?Sized + AsRef<T::Borrowed>,
    {
        Within::new(&self.set.map, Key::<T>::new(key.as_ref()), limit)
    }
}

impl<T: Bytes> GenericPatriciaSet<T> {
    /// Returns the elements that begin with the prefix, in order. The iterator does not keep the
    /// prefix.
    pub fn iter_prefix<'a>(&'a self, prefix: &T::Borrowed) -> IterPrefix<'a, T> {
        IterPrefix::new(&self.set.map, Key::<T>::new(prefix))
    }

    /// Returns the tree bytes, the encoding of the elements, as those of a map.
    pub fn tree_bytes(&self) -> Result<Vec<u8>, TooDeep> {
        encoded(self.try_tree_bytes())
    }

    /// Does as `tree_bytes`, and also returns an error if memory runs out.
    pub fn try_tree_bytes(&self) -> Result<Vec<u8>, WireError> {
        self.set.tree_bytes().map(|bytes| bytes.0)
    }

    /// Returns the wide tree bytes, in which each level takes four bytes in place of two.
    pub fn wide_tree_bytes(&self) -> Result<Vec<u8>, TooDeep> {
        encoded(self.try_wide_tree_bytes())
    }

    /// Does as `wide_tree_bytes`, and also returns an error if memory runs out.
    pub fn try_wide_tree_bytes(&self) -> Result<Vec<u8>, WireError> {
        self.set.wide_tree_bytes().map(|bytes| bytes.0)
    }

    /// Makes a set of tree bytes and of the number of its elements. It is an error if the bytes are
    /// not a whole tree of so many elements: the first fault, and its offset.
    pub fn from_tree_bytes(bytes: &[u8], count: usize) -> Result<Self, DecodeError> {
        decoded(Self::try_from_tree_bytes(bytes, count))
    }

    /// Does as `from_tree_bytes`, and also returns an error if memory runs out.
    pub fn try_from_tree_bytes(bytes: &[u8], count: usize) -> Result<Self, DecodeError> {
        GenericPatriciaMap::try_from_tree_bytes(bytes, units(bytes, count)).map(Self::of)
    }

    /// Makes a set of wide tree bytes and of the number of its elements.
    pub fn from_wide_tree_bytes(bytes: &[u8], count: usize) -> Result<Self, DecodeError> {
        decoded(Self::try_from_wide_tree_bytes(bytes, count))
    }

    /// Does as `from_wide_tree_bytes`, and also returns an error if memory runs out.
    pub fn try_from_wide_tree_bytes(bytes: &[u8], count: usize) -> Result<Self, DecodeError> {
        GenericPatriciaMap::try_from_wide_tree_bytes(bytes, units(bytes, count)).map(Self::of)
    }

    /// Makes a set of elements that come in order, each after the one before it.
    pub fn from_sorted_iter<U, I>(elements: I) -> Result<Self, NotInOrder>
    where
        U: AsRef<T::Borrowed>,
        I: IntoIterator<Item = U>,
    {
        loaded(Self::try_from_sorted_iter(elements))
    }

    /// Does as `from_sorted_iter`, and also returns an error if memory runs out.
    pub fn try_from_sorted_iter<U, I>(elements: I) -> Result<Self, LoadError>
    where
        U: AsRef<T::Borrowed>,
        I: IntoIterator<Item = U>,
    {
        let entries = elements.into_iter().map(|element| (element, ()));
        GenericPatriciaMap::try_from_sorted_iter(entries).map(Self::of)
    }

    /// Appends elements in order: each has to come after the one before it, and the first one after
    /// those of the set. At the first that does not, those before it are in the set.
    pub fn sorted_load<U, I>(&mut self, elements: I) -> Result<(), NotInOrder>
    where
        U: AsRef<T::Borrowed>,
        I: IntoIterator<Item = U>,
    {
        loaded(self.try_sorted_load(elements))
    }

    /// Does as `sorted_load`, and returns an error if memory runs out, as that of a map.
    pub fn try_sorted_load<U, I>(&mut self, elements: I) -> Result<(), LoadError>
    where
        U: AsRef<T::Borrowed>,
        I: IntoIterator<Item = U>,
    {
        let entries = elements.into_iter().map(|element| (element, ()));
        self.as_map(|map| map.try_sorted_load(entries))
    }
}

/// So many values of a set. Each record takes a byte and more, so that a number above that of the
/// bytes has the same first fault as one more than the bytes.
fn units(bytes: &[u8], count: usize) -> Vec<()> {
    core::iter::repeat_n((), count.min(bytes.len() + 1)).collect()
}
