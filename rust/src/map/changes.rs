//! Values that are changed in place, and entries that are counted, removed and chosen.

use super::GenericPatriciaMap;
use crate::errors::{AllocError, need};
use crate::key::{BorrowedBytes, Bytes, Key};

impl<K: Bytes, V> GenericPatriciaMap<K, V> {
    /// Calls a closure at the value of a key, and returns what the closure returns, or `None` if
    /// there is no such key.
    pub fn update<Q, R, F>(&mut self, key: Q, f: F) -> Option<R>
    where
        Q: AsRef<K::Borrowed>,
        F: FnOnce(&mut V) -> R,
    {
        self.map.update(Key::<K>::new(key.as_ref()), f)
    }

    /// Inserts what a closure returns if the key is not there, and returns whether it was not.
    pub fn insert_with<Q, F>(&mut self, key: Q, f: F) -> bool
    where
        Q: AsRef<K::Borrowed>,
        F: FnOnce() -> V,
    {
        need(self.try_insert_with(key, f))
    }

    /// Does as `insert_with`. If memory runs out, the map is unchanged, and the value that the
    /// closure returned is dropped.
    pub fn try_insert_with<Q, F>(&mut self, key: Q, f: F) -> Result<bool, AllocError>
    where
        Q: AsRef<K::Borrowed>,
        F: FnOnce() -> V,
    {
        self.map.insert_with(Key::<K>::new(key.as_ref()), f)
    }

    /// Returns the value at a key, to be changed. If the key is not there, inserts what a closure
    /// returns first.
    ///
    /// ```
    /// use patricia::StringPatriciaMap;
    ///
    /// let mut counts = StringPatriciaMap::new();
    /// for word in ["to", "be", "or", "not", "to", "be"] {
    ///     *counts.get_or_insert_with(word, || 0) += 1;
    /// }
    /// assert_eq!(counts.get("to"), Some(&2));
    /// ```
    pub fn get_or_insert_with<Q, F>(&mut self, key: Q, f: F) -> &mut V
    where
        Q: AsRef<K::Borrowed>,
        F: FnOnce() -> V,
    {
        need(self.try_get_or_insert_with(key, f))
    }

    /// Does as `get_or_insert_with`. If memory runs out, the map is unchanged, and the value that
    /// the closure returned is dropped.
    pub fn try_get_or_insert_with<Q, F>(&mut self, key: Q, f: F) -> Result<&mut V, AllocError>
    where
        Q: AsRef<K::Borrowed>,
        F: FnOnce() -> V,
    {
        self.map.get_or_insert_with(Key::<K>::new(key.as_ref()), f)
    }

    /// Returns the number of entries whose keys begin with the prefix. Takes time in proportion to
    /// these entries, and makes no key.
    pub fn count_prefix<Q: AsRef<K::Borrowed>>(&self, prefix: Q) -> usize {
        need(self.try_count_prefix(prefix))
    }

    /// Does as `count_prefix`. Memory is needed only if some key has more than 64 bytes after the
    /// prefix.
    pub fn try_count_prefix<Q>(&self, prefix: Q) -> Result<usize, AllocError>
    where
        Q: AsRef<K::Borrowed>,
    {
        self.map.count_prefix(Key::<K>::new(prefix.as_ref()))
    }

    /// Removes the entries whose keys begin with the prefix, and returns how many there were.
    pub fn remove_prefix<Q: AsRef<K::Borrowed>>(&mut self, prefix: Q) -> usize {
        need(self.try_remove_prefix(prefix))
    }

    /// Does as `remove_prefix`. If memory runs out, the map is unchanged.
    pub fn try_remove_prefix<Q>(&mut self, prefix: Q) -> Result<usize, AllocError>
    where
        Q: AsRef<K::Borrowed>,
    {
        self.map.remove_prefix(Key::<K>::new(prefix.as_ref()))
    }

    /// Keeps the entries for which a closure returns `true`, which it asks in key order.
    ///
    /// If the closure panics, the entries for which it has not returned `false` stay.
    pub fn retain<F>(&mut self, f: F)
    where
        F: FnMut(&K::Borrowed, &mut V) -> bool,
    {
        need(self.try_retain(f))
    }

    /// Does as `retain`. If memory runs out, the entries before the one for which it ran out are
    /// done, and that one and those after it stay.
    pub fn try_retain<F>(&mut self, mut f: F) -> Result<(), AllocError>
    where
        F: FnMut(&K::Borrowed, &mut V) -> bool,
    {
        self.map
            .retain(|key, value| f(K::Borrowed::from_bytes(key), value))
    }

    /// Calls a closure at each entry, in key order. It makes no key.
    pub fn for_each<F>(&self, f: F)
    where
        F: FnMut(&K::Borrowed, &V),
    {
        need(self.try_for_each(f))
    }

    /// Does as `for_each`. If memory runs out for the path, it stops at the entry before.
    pub fn try_for_each<F>(&self, mut f: F) -> Result<(), AllocError>
    where
        F: FnMut(&K::Borrowed, &V),
    {
        self.map
            .for_each(&mut |key: &[u8], value: &V| f(K::Borrowed::from_bytes(key), value))
    }

    /// Calls a closure at each entry whose key begins with the prefix, in key order. It makes no
    /// key.
    pub fn for_each_prefix<F>(&self, prefix: &K::Borrowed, f: F)
    where
        F: FnMut(&K::Borrowed, &V),
    {
        need(self.try_for_each_prefix(prefix, f))
    }

    /// Does as `for_each_prefix`. If memory runs out for the path, it stops at the entry before.
    pub fn try_for_each_prefix<F>(&self, prefix: &K::Borrowed, mut f: F) -> Result<(), AllocError>
    where
        F: FnMut(&K::Borrowed, &V),
    {
        let mut call = |key: &[u8], value: &V| f(K::Borrowed::from_bytes(key), value);
        self.map.for_each_prefix(Key::<K>::new(prefix), &mut call)
    }
}
