//! A map whose keys share their common prefixes, and its iterators.

mod bulk;
mod changes;
mod ends;
mod many;
mod traits;
mod wire;

pub(crate) use many::{try_contains_many, try_longest_keys};

pub use crate::cursor::{Cursor, Range, Within};
pub use crate::iter::{CommonPrefixesIter, IntoIter, Iter, IterPrefix, Keys, Values};
pub use crate::iter_mut::{IterMut, IterPrefixMut, ValuesMut};

use crate::errors::{AllocError, Refused, need};
use crate::iter::CommonPrefixValuesOwned;
use crate::key::{Bytes, Key};
use crate::parts::{self, Proved};
use core::iter;
use core::mem;
use core::ops::{Bound, RangeBounds};
use memory::string::String;
use memory::vec::Vec;

/// A map whose keys are byte strings.
pub type PatriciaMap<V> = GenericPatriciaMap<Vec<u8>, V>;

/// A map whose keys are texts.
pub type StringPatriciaMap<V> = GenericPatriciaMap<String, V>;

/// A map from keys of one kind to values, in the order of the keys' bytes.
///
/// ```
/// use patricia::StringPatriciaMap;
///
/// let mut map = StringPatriciaMap::new();
/// map.insert("rust", 1);
/// map.insert("ruby", 2);
/// assert_eq!(map.get("ruby"), Some(&2));
/// assert_eq!(map.get_longest_common_prefix("rusty"), Some(("rust", &1)));
/// assert_eq!(map.iter_prefix("ru").count(), 2);
/// ```
pub struct GenericPatriciaMap<K, V> {
    pub(crate) map: Proved<K, V>,
}

impl<K, V> GenericPatriciaMap<K, V> {
    /// Makes an empty map. It does not allocate.
    pub fn new() -> Self {
        GenericPatriciaMap {
            map: parts::empty(),
        }
    }

    /// Removes all entries.
    pub fn clear(&mut self) {
        drop(mem::take(self));
    }

    /// Returns the number of entries, in constant time.
    #[inline]
    pub fn len(&self) -> usize {
        parts::len(&self.map)
    }

    /// Returns whether there is no entry, in constant time.
    #[inline]
    pub fn is_empty(&self) -> bool {
        self.len() == 0
    }
}

impl<K: Bytes, V> GenericPatriciaMap<K, V> {
    /// Returns whether the map has the key.
    #[inline]
    pub fn contains_key<Q: AsRef<K::Borrowed>>(&self, key: Q) -> bool {
        self.map.contains_key(Key::<K>::new(key.as_ref()))
    }

    /// Returns the value at a key.
    ///
    /// Takes time in proportion to the nodes that it visits: for byte keys at most
    /// `1 + 256 * key.len()`, and mostly a few.
    #[inline]
    pub fn get<Q: AsRef<K::Borrowed>>(&self, key: Q) -> Option<&V> {
        self.map.get(Key::<K>::new(key.as_ref()))
    }

    /// Returns the value at a key, to be changed.
    #[inline]
    pub fn get_mut<Q: AsRef<K::Borrowed>>(&mut self, key: Q) -> Option<&mut V> {
        self.map.get_mut(Key::<K>::new(key.as_ref()))
    }

    /// Returns the entry whose key is the longest prefix of this key.
    ///
    /// ```
    /// use patricia::PatriciaMap;
    ///
    /// let map = PatriciaMap::from_iter([("foo", 1), ("foobar", 2)]);
    /// assert_eq!(map.get_longest_common_prefix("fooba"), Some((b"foo".as_slice(), &1)));
    /// assert_eq!(map.get_longest_common_prefix("foobarbaz"), Some((b"foobar".as_slice(), &2)));
    /// assert_eq!(map.get_longest_common_prefix("fo"), None);
    /// ```
    pub fn get_longest_common_prefix<'a, Q>(&self, key: &'a Q) -> Option<(&'a K::Borrowed, &V)>
    where
        Q: ?Sized + AsRef<K::Borrowed>,
    {
        let (part, value) = self
            .map
            .get_longest_common_prefix(Key::<K>::new(key.as_ref()))?;
        Some((part.get(), value))
    }

    /// Does as `get_longest_common_prefix`, with the value to be changed.
    pub fn get_longest_common_prefix_mut<'a, Q>(
        &mut self,
        key: &'a Q,
    ) -> Option<(&'a K::Borrowed, &mut V)>
    where
        Q: ?Sized + AsRef<K::Borrowed>,
    {
        let (part, value) = self
            .map
            .get_longest_common_prefix_mut(Key::<K>::new(key.as_ref()))?;
        Some((part.get(), value))
    }

    /// Returns the length in bytes of the longest prefix of the key, in whole items, that is also a
    /// prefix of some key of the map.
    ///
    /// ```
    /// use patricia::PatriciaMap;
    ///
    /// let map = PatriciaMap::from_iter([("foo", 1), ("foobar", 2)]);
    /// assert_eq!(map.longest_common_prefix_len("foobat"), 5);
    /// ```
    pub fn longest_common_prefix_len<Q>(&self, key: &Q) -> usize
    where
        Q: ?Sized + AsRef<K::Borrowed>,
    {
        self.map
            .longest_common_prefix_len(Key::<K>::new(key.as_ref()))
    }

    /// Inserts a value at a key, and returns the value that was there.
    #[inline]
    pub fn insert<Q: AsRef<K::Borrowed>>(&mut self, key: Q, value: V) -> Option<V> {
        need(self.try_insert(key, value))
    }

    /// Does as `insert`. If memory runs out, the map is unchanged, and the error has the value. It
    /// never does for a key that is there, nor for the empty key.
    ///
    /// ```
    /// use patricia::{PatriciaMap, Refused};
    ///
    /// let mut map = PatriciaMap::new();
    /// match map.try_insert("foo", vec![1, 2]) {
    ///     Ok(old) => assert_eq!(old, None),
    ///     Err(Refused { value }) => println!("no memory for {value:?}"),
    /// }
    /// ```
    #[inline]
    pub fn try_insert<Q>(&mut self, key: Q, value: V) -> Result<Option<V>, Refused<V>>
    where
        Q: AsRef<K::Borrowed>,
    {
        let inserted = self.map.insert(Key::<K>::new(key.as_ref()), value);
        inserted.map_err(|refused| Refused {
            value: refused.value,
        })
    }

    /// Removes a key, and returns the value that was there.
    #[inline]
    pub fn remove<Q: AsRef<K::Borrowed>>(&mut self, key: Q) -> Option<V> {
        need(self.try_remove(key))
    }

    /// Does as `remove`. If memory runs out for the label of two joined nodes, the map is
    /// unchanged. It never does for a key that is not there, nor for the empty key.
    #[inline]
    pub fn try_remove<Q>(&mut self, key: Q) -> Result<Option<V>, AllocError>
    where
        Q: AsRef<K::Borrowed>,
    {
        self.map.remove(Key::<K>::new(key.as_ref()))
    }

    /// Returns the entries whose keys are prefixes of this key, the shortest first. It does not
    /// allocate.
    ///
    /// ```
    /// use patricia::StringPatriciaMap;
    ///
    /// let map = StringPatriciaMap::from_iter([("", 0), ("foo", 1), ("foobar", 2), ("bar", 3)]);
    /// let entries: Vec<_> = map.common_prefixes("foobarbaz").collect();
    /// assert_eq!(entries, [("", &0), ("foo", &1), ("foobar", &2)]);
    /// ```
    pub fn common_prefixes<'a, 'b, Q>(
        &'a self,
        key: &'b Q,
    ) -> CommonPrefixesIter<'a, 'b, K::Borrowed, V>
    where
        Q: ?Sized + AsRef<K::Borrowed>,
    {
        CommonPrefixesIter::new(&self.map, key.as_ref())
    }

    /// Returns the values whose keys are prefixes of this key, that of the shortest first. It does
    /// not allocate.
    pub fn common_prefix_values<'a, 'b, Q>(&'a self, key: &'b Q) -> impl Iterator<Item = &'a V>
    where
        Q: ?Sized + AsRef<K::Borrowed>,
        <K as Bytes>::Borrowed: 'b,
    {
        let mut entries = self.common_prefixes(key);
        iter::from_fn(move || entries.next_value())
    }

    /// Does as `common_prefix_values`, with a key that the iterator owns.
    pub fn common_prefix_values_owned(&self, key: K) -> impl Iterator<Item = &V>
    where
        K: AsRef<K::Borrowed>,
    {
        CommonPrefixValuesOwned::new(&self.map, key)
    }

    /// Removes the entries whose keys begin with the prefix, and returns them as a map.
    ///
    /// Takes time in proportion to these entries.
    ///
    /// ```
    /// use patricia::StringPatriciaMap;
    ///
    /// let mut map = StringPatriciaMap::from_iter([("rust", 1), ("ruby", 2), ("python", 3)]);
    /// let part = map.split_by_prefix("ru");
    /// assert_eq!(part.keys().collect::<Vec<_>>(), ["ruby", "rust"]);
    /// assert_eq!(map.keys().collect::<Vec<_>>(), ["python"]);
    /// ```
    pub fn split_by_prefix<Q: AsRef<K::Borrowed>>(&mut self, prefix: Q) -> Self {
        need(self.try_split_by_prefix(prefix))
    }

    /// Does as `split_by_prefix`. If memory runs out, the map is unchanged. It never does for the
    /// empty prefix, nor if no key begins with the prefix.
    pub fn try_split_by_prefix<Q>(&mut self, prefix: Q) -> Result<Self, AllocError>
    where
        Q: AsRef<K::Borrowed>,
    {
        let map = self.map.split_by_prefix(Key::<K>::new(prefix.as_ref()))?;
        Ok(GenericPatriciaMap { map })
    }

    /// Returns the entries, in key order.
    pub fn iter(&self) -> Iter<'_, K, V> {
        Iter::new(&self.map)
    }

    /// Returns the entries, in key order, with values that can be changed.
    ///
    /// It allocates in proportion to the map, and so does `values_mut`, which makes no key.
    /// `retain` with a closure that returns `true` changes values with less memory.
    pub fn iter_mut(&mut self) -> IterMut<'_, K, V> {
        IterMut::new(&mut self.map)
    }

    /// Returns the keys, in order.
    pub fn keys(&self) -> Keys<'_, K, V> {
        Keys::new(&self.map)
    }

    /// Returns the values, in key order.
    pub fn values(&self) -> Values<'_, V> {
        Values::new(&self.map)
    }

    /// Returns the values, in key order, to be changed.
    pub fn values_mut(&mut self) -> ValuesMut<'_, V> {
        ValuesMut::new(&mut self.map)
    }
}

impl<K: Bytes, V> GenericPatriciaMap<K, V> {
    /// Returns the entries whose keys begin with the prefix, in key order. The iterator does not
    /// keep the prefix.
    pub fn iter_prefix<'a>(&'a self, prefix: &K::Borrowed) -> IterPrefix<'a, K, V> {
        IterPrefix::new(&self.map, Key::<K>::new(prefix))
    }

    /// Returns the entries whose keys begin with the prefix, in key order, with values that can be
    /// changed.
    pub fn iter_prefix_mut<'a>(&'a mut self, prefix: &K::Borrowed) -> IterPrefixMut<'a, K, V> {
        IterPrefixMut::new(&mut self.map, Key::<K>::new(prefix))
    }

    /// Returns the entries of a range of keys, in key order. It is empty if the end comes before
    /// the start.
    ///
    /// ```
    /// use patricia::StringPatriciaMap;
    ///
    /// let map = StringPatriciaMap::from_iter([("a", 1), ("b", 2), ("c", 3)]);
    /// assert_eq!(map.range("b"..).count(), 2);
    /// assert_eq!(map.range("a"..="b").count(), 2);
    /// ```
    pub fn range<Q, R>(&self, range: R) -> Range<'_, K, V>
    where
        Q: AsRef<K::Borrowed>,
        R: RangeBounds<Q>,
    {
        Range::new(self.cursor_range(range))
    }

    /// Returns a cursor over the entries, in key order. It makes no key, and so is faster than
    /// `iter`.
    ///
    /// ```
    /// use patricia::StringPatriciaMap;
    ///
    /// let map = StringPatriciaMap::from_iter([("a", 1), ("b", 2)]);
    /// let mut cursor = map.cursor();
    /// while cursor.advance() {
    ///     println!("{:?} {:?}", cursor.key(), cursor.value());
    /// }
    /// ```
    pub fn cursor(&self) -> Cursor<'_, K, V> {
        Cursor::all(&self.map)
    }

    /// Returns a cursor over the entries whose keys begin with the prefix.
    pub fn cursor_prefix(&self, prefix: &K::Borrowed) -> Cursor<'_, K, V> {
        Cursor::under(&self.map, Key::<K>::new(prefix))
    }

    /// Returns a cursor over the entries from a key on, which need not be there.
    pub fn cursor_from(&self, key: &K::Borrowed) -> Cursor<'_, K, V> {
        use crate::key::BorrowedBytes as _;
        Cursor::between(&self.map, Bound::Included(key.as_bytes()), Bound::Unbounded)
    }

    /// Returns a cursor over the entries of a range of keys.
    pub fn cursor_range<Q, R>(&self, range: R) -> Cursor<'_, K, V>
    where
        Q: AsRef<K::Borrowed>,
        R: RangeBounds<Q>,
    {
        use crate::key::BorrowedBytes as _;
        let start = range.start_bound().map(|key| key.as_ref().as_bytes());
        let end = range.end_bound().map(|key| key.as_ref().as_bytes());
        Cursor::between(&self.map, start, end)
    }

    /// Returns the entries whose keys are at most `limit` edits from the key, in key order.
    ///
    /// An edit inserts, deletes or replaces an item: a byte of a byte string, a character of a
    /// text. Takes time in proportion to the items of the keys that it looks at, times those of the
    /// key.
    ///
    /// ```
    /// use patricia::StringPatriciaMap;
    ///
    /// let map = StringPatriciaMap::from_iter([("prefix", 1), ("suffix", 2)]);
    /// assert_eq!(map.within("preffix", 1).collect::<Vec<_>>(), [("prefix".to_string(), &1)]);
    /// ```
    pub fn within<'b, Q>(&self, key: &'b Q, limit: u32) -> Within<'_, 'b, K, V>
    where
        Q: ?Sized + AsRef<K::Borrowed>,
    {
        Within::new(&self.map, Key::<K>::new(key.as_ref()), limit)
    }
}
