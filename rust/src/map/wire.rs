//! Tree bytes: the one encoding of the keys.

use super::GenericPatriciaMap;
use crate::errors::{DecodeError, TooDeep, WireError, decoded, encoded};
use crate::key::Bytes;
use crate::rt::alloc::Global;
use crate::rt::vec::Vec as ProvedVec;
use memory::vec::Vec;

impl<K: Bytes, V> GenericPatriciaMap<K, V> {
    /// Returns the tree bytes, the encoding of the keys. It is the same for each map with these
    /// keys, and for no other. The values are not in it: they are stored beside it, in key order.
    ///
    /// It is an error if a node is deeper than level 65,535.
    ///
    /// ```
    /// use patricia::StringPatriciaMap;
    ///
    /// let map = StringPatriciaMap::from_iter([("foo", 1), ("bar", 2)]);
    /// let bytes = map.tree_bytes().unwrap();
    /// let values = map.values().copied().collect();
    /// assert!(StringPatriciaMap::from_tree_bytes(&bytes, values).unwrap() == map);
    /// ```
    pub fn tree_bytes(&self) -> Result<Vec<u8>, TooDeep> {
        encoded(self.try_tree_bytes())
    }

    /// Does as `tree_bytes`, and also returns an error if memory runs out.
    pub fn try_tree_bytes(&self) -> Result<Vec<u8>, WireError> {
        self.map.tree_bytes().map(|bytes| bytes.0)
    }

    /// Returns the wide tree bytes, in which each level takes four bytes in place of two. It is an
    /// error if a node is deeper than level 4,294,967,295.
    pub fn wide_tree_bytes(&self) -> Result<Vec<u8>, TooDeep> {
        encoded(self.try_wide_tree_bytes())
    }

    /// Does as `wide_tree_bytes`, and also returns an error if memory runs out.
    pub fn try_wide_tree_bytes(&self) -> Result<Vec<u8>, WireError> {
        self.map.wide_tree_bytes().map(|bytes| bytes.0)
    }

    /// Makes a map of tree bytes and of values in key order. It is an error if the bytes are not a
    /// whole tree with a value for each key: the first fault, and its offset.
    pub fn from_tree_bytes(bytes: &[u8], values: Vec<V>) -> Result<Self, DecodeError> {
        decoded(Self::try_from_tree_bytes(bytes, values))
    }

    /// Does as `from_tree_bytes`, and also returns an error if memory runs out.
    pub fn try_from_tree_bytes(bytes: &[u8], values: Vec<V>) -> Result<Self, DecodeError> {
        let map = crate::parts::Proved::from_wire(Global, bytes, ProvedVec(values))?;
        Ok(GenericPatriciaMap { map })
    }

    /// Makes a map of wide tree bytes and of values in key order, as `from_tree_bytes` does of tree
    /// bytes.
    pub fn from_wide_tree_bytes(bytes: &[u8], values: Vec<V>) -> Result<Self, DecodeError> {
        decoded(Self::try_from_wide_tree_bytes(bytes, values))
    }

    /// Does as `from_wide_tree_bytes`, and also returns an error if memory runs out.
    pub fn try_from_wide_tree_bytes(bytes: &[u8], values: Vec<V>) -> Result<Self, DecodeError> {
        let map = crate::parts::Proved::from_wide_wire(Global, bytes, ProvedVec(values))?;
        Ok(GenericPatriciaMap { map })
    }
}
