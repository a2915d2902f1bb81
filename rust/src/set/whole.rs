//! Two sets compared and combined, elements that are chosen, and ends.

use super::GenericPatriciaSet;
use crate::errors::{AllocError, need};
use crate::key::{BorrowedBytes, Bytes, Key, Owned};
use core::mem;
use memory::vec::Vec;

/// An element as the caller knows it.
fn unwrapped<T>(element: Option<Owned<T>>) -> Option<T> {
    element.map(|element| element.0)
}

impl<T: Bytes> GenericPatriciaSet<T> {
    /// Returns the first element in order.
    pub fn first(&self) -> Option<T> {
        need(self.try_first())
    }

    /// Does as `first`, or returns an error if memory runs out for the key.
    pub fn try_first(&self) -> Result<Option<T>, AllocError> {
        self.set.first().map(unwrapped)
    }

    /// Returns the last element in order.
    pub fn last(&self) -> Option<T> {
        need(self.try_last())
    }

    /// Does as `last`, or returns an error if memory runs out for the key.
    pub fn try_last(&self) -> Result<Option<T>, AllocError> {
        self.set.last().map(unwrapped)
    }

    /// Returns the first element after a key, which need not be there.
    pub fn first_after<U: AsRef<T::Borrowed>>(&self, key: U) -> Option<T> {
        need(self.try_first_after(key))
    }

    /// Does as `first_after`, or returns an error if memory runs out for a key or the path.
    pub fn try_first_after<U>(&self, key: U) -> Result<Option<T>, AllocError>
    where
        U: AsRef<T::Borrowed>,
    {
        self.set
            .first_after(Key::<T>::new(key.as_ref()))
            .map(unwrapped)
    }

    /// Returns the last element before a key, which need not be there.
    pub fn last_before<U: AsRef<T::Borrowed>>(&self, key: U) -> Option<T> {
        need(self.try_last_before(key))
    }

    /// Does as `last_before`, or returns an error if memory runs out for the key.
    pub fn try_last_before<U>(&self, key: U) -> Result<Option<T>, AllocError>
    where
        U: AsRef<T::Borrowed>,
    {
        self.set
            .last_before(Key::<T>::new(key.as_ref()))
            .map(unwrapped)
    }

    /// Removes the first element in order, and returns it.
    pub fn pop_first(&mut self) -> Option<T> {
        need(self.try_pop_first())
    }

    /// Does as `pop_first`. If memory runs out, the set is unchanged.
    pub fn try_pop_first(&mut self) -> Result<Option<T>, AllocError> {
        self.set.pop_first().map(unwrapped)
    }

    /// Removes the last element in order, and returns it.
    pub fn pop_last(&mut self) -> Option<T> {
        need(self.try_pop_last())
    }

    /// Does as `pop_last`. If memory runs out, the set is unchanged.
    pub fn try_pop_last(&mut self) -> Result<Option<T>, AllocError> {
        self.set.pop_last().map(unwrapped)
    }

    /// Keeps the elements for which a closure returns `true`, which it asks in order. If the
    /// closure panics, the set is unchanged.
    pub fn retain<F>(&mut self, f: F)
    where
        F: FnMut(&T::Borrowed) -> bool,
    {
        need(self.try_retain(f))
    }

    /// Does as `retain`. If memory runs out, the set is unchanged.
    pub fn try_retain<F>(&mut self, mut f: F) -> Result<(), AllocError>
    where
        F: FnMut(&T::Borrowed) -> bool,
    {
        self.set
            .retain(|element| f(T::Borrowed::from_bytes(element)))
    }

    /// Calls a closure at each element, in order. It makes no key.
    pub fn for_each<F: FnMut(&T::Borrowed)>(&self, f: F) {
        need(self.try_for_each(f))
    }

    /// Does as `for_each`. If memory runs out for the path, it stops at the element before.
    pub fn try_for_each<F>(&self, mut f: F) -> Result<(), AllocError>
    where
        F: FnMut(&T::Borrowed),
    {
        self.set
            .for_each(&mut |element: &[u8]| f(T::Borrowed::from_bytes(element)))
    }

    /// Moves all elements of another set here. The other set is left empty.
    pub fn append(&mut self, other: &mut Self) {
        need(self.try_append(other))
    }

    /// Does as `append`. If memory runs out, the elements before the one for which it ran out are
    /// here, and those from it on are dropped.
    pub fn try_append(&mut self, other: &mut Self) -> Result<(), AllocError> {
        let taken = mem::take(other);
        self.set.map.merge_with(taken.set.map, |(), ()| ())
    }

    /// Returns a set of the elements of both.
    ///
    /// ```
    /// use patricia::StringPatriciaSet;
    ///
    /// let one = StringPatriciaSet::from_iter(["a", "b"]);
    /// let other = StringPatriciaSet::from_iter(["b", "c"]);
    /// assert_eq!(one.union(&other).iter().collect::<Vec<_>>(), ["a", "b", "c"]);
    /// assert_eq!(one.intersection(&other).iter().collect::<Vec<_>>(), ["b"]);
    /// assert_eq!(one.difference(&other).iter().collect::<Vec<_>>(), ["a"]);
    /// ```
    pub fn union(&self, other: &Self) -> Self {
        need(self.try_union(other))
    }

    /// Does as `union`, or returns an error if memory runs out.
    pub fn try_union(&self, other: &Self) -> Result<Self, AllocError> {
        Ok(GenericPatriciaSet {
            set: self.set.union(&other.set)?,
        })
    }

    /// Returns a set of the elements that both have.
    pub fn intersection(&self, other: &Self) -> Self {
        need(self.try_intersection(other))
    }

    /// Does as `intersection`, or returns an error if memory runs out.
    pub fn try_intersection(&self, other: &Self) -> Result<Self, AllocError> {
        Ok(GenericPatriciaSet {
            set: self.set.intersection(&other.set)?,
        })
    }

    /// Returns a set of the elements that the other set does not have.
    pub fn difference(&self, other: &Self) -> Self {
        need(self.try_difference(other))
    }

    /// Does as `difference`, or returns an error if memory runs out.
    pub fn try_difference(&self, other: &Self) -> Result<Self, AllocError> {
        Ok(GenericPatriciaSet {
            set: self.set.difference(&other.set)?,
        })
    }

    /// Returns whether the other set has all elements of this one.
    pub fn is_subset(&self, other: &Self) -> bool {
        need(self.try_is_subset(other))
    }

    /// Does as `is_subset`, or returns an error if memory runs out for the path.
    pub fn try_is_subset(&self, other: &Self) -> Result<bool, AllocError> {
        self.set.is_subset(&other.set)
    }

    /// Returns whether this set has all elements of the other one.
    pub fn is_superset(&self, other: &Self) -> bool {
        need(self.try_is_superset(other))
    }

    /// Does as `is_superset`, or returns an error if memory runs out for the path.
    pub fn try_is_superset(&self, other: &Self) -> Result<bool, AllocError> {
        other.try_is_subset(self)
    }

    /// Returns whether the sets have no element in common.
    pub fn is_disjoint(&self, other: &Self) -> bool {
        need(self.try_is_disjoint(other))
    }

    /// Does as `is_disjoint`, or returns an error if memory runs out for the path.
    pub fn try_is_disjoint(&self, other: &Self) -> Result<bool, AllocError> {
        self.set.is_disjoint(&other.set)
    }

    /// Looks many elements up, and returns for each whether the set has it.
    pub fn contains_many<U: AsRef<T::Borrowed>>(&self, values: &[U]) -> Vec<bool> {
        need(self.try_contains_many(values))
    }

    /// Does as `contains_many`, or returns an error if memory runs out for the list.
    pub fn try_contains_many<U>(&self, values: &[U]) -> Result<Vec<bool>, AllocError>
    where
        U: AsRef<T::Borrowed>,
    {
        crate::map::try_contains_many::<T, U, ()>(&self.set.map, values)
    }

    /// Returns for each of many keys the longest element that is a prefix of it.
    pub fn longest_many<'b, U>(&self, keys: &'b [U]) -> Vec<Option<&'b T::Borrowed>>
    where
        U: AsRef<T::Borrowed>,
    {
        need(self.try_longest_many(keys))
    }

    /// Does as `longest_many`, or returns an error if memory runs out for the list.
    pub fn try_longest_many<'b, U>(
        &self,
        keys: &'b [U],
    ) -> Result<Vec<Option<&'b T::Borrowed>>, AllocError>
    where
        U: AsRef<T::Borrowed>,
    {
        crate::map::try_longest_keys::<T, U, ()>(&self.set.map, keys)
    }
}
