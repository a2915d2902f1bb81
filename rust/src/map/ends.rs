//! The first and the last entry, and those next to a key.

use super::GenericPatriciaMap;
use crate::errors::{AllocError, need};
use crate::key::{Bytes, Key, Owned};

/// An entry with its key as the caller knows it.
fn unwrapped<K, V>(entry: Option<(Owned<K>, V)>) -> Option<(K, V)> {
    entry.map(|(key, value)| (key.0, value))
}

impl<K: Bytes, V> GenericPatriciaMap<K, V> {
    /// Returns the first entry in key order.
    pub fn first_key_value(&self) -> Option<(K, &V)> {
        need(self.try_first_key_value())
    }

    /// Does as `first_key_value`, or returns an error if memory runs out for the key.
    pub fn try_first_key_value(&self) -> Result<Option<(K, &V)>, AllocError> {
        self.map.first_key_value().map(unwrapped)
    }

    /// Returns the last entry in key order.
    pub fn last_key_value(&self) -> Option<(K, &V)> {
        need(self.try_last_key_value())
    }

    /// Does as `last_key_value`, or returns an error if memory runs out for the key.
    pub fn try_last_key_value(&self) -> Result<Option<(K, &V)>, AllocError> {
        self.map.last_key_value().map(unwrapped)
    }

    /// Returns the first entry after a key, which need not be there.
    pub fn first_after<Q: AsRef<K::Borrowed>>(&self, key: Q) -> Option<(K, &V)> {
        need(self.try_first_after(key))
    }

    /// Does as `first_after`, or returns an error if memory runs out for a key or the path.
    pub fn try_first_after<Q>(&self, key: Q) -> Result<Option<(K, &V)>, AllocError>
    where
        Q: AsRef<K::Borrowed>,
    {
        self.map
            .first_after(Key::<K>::new(key.as_ref()))
            .map(unwrapped)
    }

    /// Returns the last entry before a key, which need not be there.
    pub fn last_before<Q: AsRef<K::Borrowed>>(&self, key: Q) -> Option<(K, &V)> {
        need(self.try_last_before(key))
    }

    /// Does as `last_before`, or returns an error if memory runs out for the key.
    pub fn try_last_before<Q>(&self, key: Q) -> Result<Option<(K, &V)>, AllocError>
    where
        Q: AsRef<K::Borrowed>,
    {
        self.map
            .last_before(Key::<K>::new(key.as_ref()))
            .map(unwrapped)
    }

    /// Removes the first entry in key order, and returns it. To take all entries out, `into_iter`
    /// is faster.
    pub fn pop_first(&mut self) -> Option<(K, V)> {
        need(self.try_pop_first())
    }

    /// Does as `pop_first`. If memory runs out, the map is unchanged.
    pub fn try_pop_first(&mut self) -> Result<Option<(K, V)>, AllocError> {
        self.map.pop_first().map(unwrapped)
    }

    /// Removes the last entry in key order, and returns it.
    pub fn pop_last(&mut self) -> Option<(K, V)> {
        need(self.try_pop_last())
    }

    /// Does as `pop_last`. If memory runs out, the map is unchanged.
    pub fn try_pop_last(&mut self) -> Result<Option<(K, V)>, AllocError> {
        self.map.pop_last().map(unwrapped)
    }
}
