//! What a set has of std's traits.

use super::{GenericPatriciaSet, IntoIter, Iter};
use crate::errors::{AllocError, need};
use crate::key::Bytes;
use crate::map::GenericPatriciaMap;
use crate::parts;
use crate::proved::patricia_tree::set::GenericPatriciaSet as ProvedSet;
use core::cmp::Ordering;
use core::fmt;
use core::hash::{Hash, Hasher};
use core::ops::{BitAnd, BitOr, Sub};

impl<T> Default for GenericPatriciaSet<T> {
    fn default() -> Self {
        GenericPatriciaSet::new()
    }
}

impl<T> GenericPatriciaSet<T> {
    /// Returns a copy of the set, or an error if memory runs out.
    pub fn try_clone(&self) -> Result<Self, AllocError> {
        let map = parts::try_clone(&self.set.map)?;
        Ok(GenericPatriciaSet {
            set: ProvedSet { map },
        })
    }
}

impl<T> Clone for GenericPatriciaSet<T> {
    fn clone(&self) -> Self {
        need(self.try_clone())
    }
}

impl<T: Bytes> GenericPatriciaSet<T> {
    /// Returns whether both sets have the same elements, or an error if memory runs out for the
    /// path.
    pub fn try_equals(&self, other: &Self) -> Result<bool, AllocError> {
        self.set.equals(&other.set)
    }

    /// Makes a set of elements in any order, or returns an error if memory runs out.
    pub fn try_from_iter<U, I>(elements: I) -> Result<Self, AllocError>
    where
        U: AsRef<T::Borrowed>,
        I: IntoIterator<Item = U>,
    {
        let entries = elements.into_iter().map(|element| (element, ()));
        GenericPatriciaMap::try_from_iter(entries).map(Self::of)
    }

    /// Inserts elements in turn. If memory runs out, those before the one for which it ran out are
    /// in the set, and the iterator is dropped.
    pub fn try_extend<U, I>(&mut self, elements: I) -> Result<(), AllocError>
    where
        U: AsRef<T::Borrowed>,
        I: IntoIterator<Item = U>,
    {
        let entries = elements.into_iter().map(|element| (element, ()));
        self.as_map(|map| map.try_extend(entries))
    }
}

impl<T: Bytes> PartialEq for GenericPatriciaSet<T> {
    fn eq(&self, other: &Self) -> bool {
        need(self.try_equals(other))
    }
}

impl<T: Bytes> Eq for GenericPatriciaSet<T> {}

impl<T: Bytes + PartialOrd> PartialOrd for GenericPatriciaSet<T> {
    fn partial_cmp(&self, other: &Self) -> Option<Ordering> {
        self.iter().partial_cmp(other.iter())
    }
}

impl<T: Bytes + Ord> Ord for GenericPatriciaSet<T> {
    fn cmp(&self, other: &Self) -> Ordering {
        self.iter().cmp(other.iter())
    }
}

impl<T: Bytes + Hash> Hash for GenericPatriciaSet<T> {
    fn hash<H: Hasher>(&self, state: &mut H) {
        self.len().hash(state);
        self.iter().for_each(|element| element.hash(state));
    }
}

impl<T: Bytes + fmt::Debug> fmt::Debug for GenericPatriciaSet<T> {
    fn fmt(&self, f: &mut fmt::Formatter) -> fmt::Result {
        f.debug_set().entries(self.iter()).finish()
    }
}

impl<T: Bytes> BitOr<&GenericPatriciaSet<T>> for &GenericPatriciaSet<T> {
    type Output = GenericPatriciaSet<T>;

    fn bitor(self, other: &GenericPatriciaSet<T>) -> Self::Output {
        self.union(other)
    }
}

impl<T: Bytes> BitAnd<&GenericPatriciaSet<T>> for &GenericPatriciaSet<T> {
    type Output = GenericPatriciaSet<T>;

    fn bitand(self, other: &GenericPatriciaSet<T>) -> Self::Output {
        self.intersection(other)
    }
}

impl<T: Bytes> Sub<&GenericPatriciaSet<T>> for &GenericPatriciaSet<T> {
    type Output = GenericPatriciaSet<T>;

    fn sub(self, other: &GenericPatriciaSet<T>) -> Self::Output {
        self.difference(other)
    }
}

impl<T: Bytes, U: AsRef<T::Borrowed>> Extend<U> for GenericPatriciaSet<T> {
    fn extend<I>(&mut self, iter: I)
    where
        I: IntoIterator<Item = U>,
    {
        need(self.try_extend(iter))
    }
}

impl<T: Bytes, U: AsRef<T::Borrowed>> FromIterator<U> for GenericPatriciaSet<T> {
    fn from_iter<I>(iter: I) -> Self
    where
        I: IntoIterator<Item = U>,
    {
        GenericPatriciaSet::of(iter.into_iter().map(|element| (element, ())).collect())
    }
}

impl<T: Bytes, U: AsRef<T::Borrowed>, const N: usize> From<[U; N]> for GenericPatriciaSet<T> {
    fn from(elements: [U; N]) -> Self {
        elements.into_iter().collect()
    }
}

impl<T: Bytes> IntoIterator for GenericPatriciaSet<T> {
    type Item = T;
    type IntoIter = IntoIter<T>;

    fn into_iter(self) -> Self::IntoIter {
        IntoIter::new(self.set.map)
    }
}

impl<'a, T: Bytes> IntoIterator for &'a GenericPatriciaSet<T> {
    type Item = T;
    type IntoIter = Iter<'a, T>;

    fn into_iter(self) -> Self::IntoIter {
        self.iter()
    }
}
