//! What a map has of std's traits.

use super::{GenericPatriciaMap, IntoIter, Iter, IterMut, bulk};
use crate::errors::{AllocError, need};
use crate::key::Bytes;
use crate::parts;
use core::cmp::Ordering;
use core::fmt;
use core::hash::{Hash, Hasher};
use core::ops::Index;

impl<K, V> Default for GenericPatriciaMap<K, V> {
    fn default() -> Self {
        GenericPatriciaMap::new()
    }
}

impl<K, V: Clone> GenericPatriciaMap<K, V> {
    /// Returns a copy of the map, or an error if memory runs out. A clone of a value that runs out
    /// of memory aborts, as it does in std.
    pub fn try_clone(&self) -> Result<Self, AllocError> {
        Ok(GenericPatriciaMap {
            map: parts::try_clone(&self.map)?,
        })
    }
}

impl<K, V: Clone> Clone for GenericPatriciaMap<K, V> {
    fn clone(&self) -> Self {
        need(self.try_clone())
    }
}

impl<K: Bytes, V: PartialEq> GenericPatriciaMap<K, V> {
    /// Returns whether both maps have the same entries, or an error if memory runs out for the
    /// path.
    pub fn try_equals(&self, other: &Self) -> Result<bool, AllocError> {
        self.map.equals(&other.map)
    }
}

impl<K: Bytes, V: PartialEq> PartialEq for GenericPatriciaMap<K, V> {
    fn eq(&self, other: &Self) -> bool {
        need(self.try_equals(other))
    }
}

impl<K: Bytes, V: Eq> Eq for GenericPatriciaMap<K, V> {}

impl<K: Bytes + PartialOrd, V: PartialOrd> PartialOrd for GenericPatriciaMap<K, V> {
    fn partial_cmp(&self, other: &Self) -> Option<Ordering> {
        self.iter().partial_cmp(other.iter())
    }
}

impl<K: Bytes + Ord, V: Ord> Ord for GenericPatriciaMap<K, V> {
    fn cmp(&self, other: &Self) -> Ordering {
        self.iter().cmp(other.iter())
    }
}

impl<K: Bytes + Hash, V: Hash> Hash for GenericPatriciaMap<K, V> {
    fn hash<H: Hasher>(&self, state: &mut H) {
        self.len().hash(state);
        self.iter().for_each(|entry| entry.hash(state));
    }
}

impl<K: Bytes + fmt::Debug, V: fmt::Debug> fmt::Debug for GenericPatriciaMap<K, V> {
    fn fmt(&self, f: &mut fmt::Formatter) -> fmt::Result {
        f.debug_map().entries(self.iter()).finish()
    }
}

impl<K: Bytes, Q: AsRef<K::Borrowed>, V> Index<Q> for GenericPatriciaMap<K, V> {
    type Output = V;

    /// Returns the value at a key.
    ///
    /// # Panics
    ///
    /// Panics if the key is not there.
    fn index(&self, key: Q) -> &V {
        self.get(key).expect("no entry found for key")
    }
}

impl<K, Q, V> Extend<(Q, V)> for GenericPatriciaMap<K, V>
where
    K: Bytes,
    Q: AsRef<K::Borrowed>,
{
    fn extend<I>(&mut self, iter: I)
    where
        I: IntoIterator<Item = (Q, V)>,
    {
        need(self.try_extend(iter))
    }
}

impl<K, Q, V> FromIterator<(Q, V)> for GenericPatriciaMap<K, V>
where
    K: Bytes,
    Q: AsRef<K::Borrowed>,
{
    /// Makes a map of entries in any order. Of entries with one key the last counts.
    fn from_iter<I>(iter: I) -> Self
    where
        I: IntoIterator<Item = (Q, V)>,
    {
        need(Self::from_list(iter.into_iter().map(bulk::entry).collect()))
    }
}

impl<K: Bytes, Q: AsRef<K::Borrowed>, V, const N: usize> From<[(Q, V); N]>
    for GenericPatriciaMap<K, V>
{
    fn from(entries: [(Q, V); N]) -> Self {
        entries.into_iter().collect()
    }
}

impl<K: Bytes, V> IntoIterator for GenericPatriciaMap<K, V> {
    type Item = (K, V);
    type IntoIter = IntoIter<K, V>;

    fn into_iter(self) -> Self::IntoIter {
        IntoIter::new(self.map)
    }
}

impl<'a, K: Bytes, V> IntoIterator for &'a GenericPatriciaMap<K, V> {
    type Item = (K, &'a V);
    type IntoIter = Iter<'a, K, V>;

    fn into_iter(self) -> Self::IntoIter {
        self.iter()
    }
}

impl<'a, K: Bytes, V> IntoIterator for &'a mut GenericPatriciaMap<K, V> {
    type Item = (K, &'a mut V);
    type IntoIter = IterMut<'a, K, V>;

    fn into_iter(self) -> Self::IntoIter {
        self.iter_mut()
    }
}
