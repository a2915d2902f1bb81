//! Serde: a map is the pair of its tree bytes and its values in key order, as `patricia_tree`
//! writes it, and a set that of its tree bytes and a unit for each element.

use crate::key::Bytes;
use crate::{GenericPatriciaMap, GenericPatriciaSet};
use core::fmt;
use memory::vec::Vec;
use serde::de::{Deserialize, Deserializer, Error as _, SeqAccess, Visitor};
use serde::ser::{Error as _, Serialize, SerializeTuple, Serializer};

/// Tree bytes, which are serialized as bytes and not as a list of numbers.
struct TreeBytes(Vec<u8>);

impl Serialize for TreeBytes {
    fn serialize<S: Serializer>(&self, serializer: S) -> Result<S::Ok, S::Error> {
        serializer.serialize_bytes(&self.0)
    }
}

impl<'de> Deserialize<'de> for TreeBytes {
    fn deserialize<D: Deserializer<'de>>(deserializer: D) -> Result<Self, D::Error> {
        deserializer.deserialize_bytes(TreeBytesVisitor)
    }
}

struct TreeBytesVisitor;

impl<'de> Visitor<'de> for TreeBytesVisitor {
    type Value = TreeBytes;

    fn expecting(&self, f: &mut fmt::Formatter<'_>) -> fmt::Result {
        f.write_str("the tree bytes of a map or a set")
    }

    fn visit_bytes<E>(self, bytes: &[u8]) -> Result<Self::Value, E> {
        Ok(TreeBytes(bytes.to_vec()))
    }

    fn visit_byte_buf<E>(self, bytes: Vec<u8>) -> Result<Self::Value, E> {
        Ok(TreeBytes(bytes))
    }

    // a format without bytes of its own has a list of numbers
    fn visit_seq<A: SeqAccess<'de>>(self, mut numbers: A) -> Result<Self::Value, A::Error> {
        let mut bytes = Vec::new();
        while let Some(byte) = numbers.next_element()? {
            bytes.push(byte);
        }
        Ok(TreeBytes(bytes))
    }
}

/// The values of a map, as a list.
struct Values<'a, K, V>(&'a GenericPatriciaMap<K, V>);

impl<K: Bytes, V: Serialize> Serialize for Values<'_, K, V> {
    fn serialize<S: Serializer>(&self, serializer: S) -> Result<S::Ok, S::Error> {
        serializer.collect_seq(self.0.values())
    }
}

/// So many units, as a list.
struct Units(usize);

impl Serialize for Units {
    fn serialize<S: Serializer>(&self, serializer: S) -> Result<S::Ok, S::Error> {
        serializer.collect_seq(core::iter::repeat_n((), self.0))
    }
}

/// A list of units, of which only the number matters.
struct Count(usize);

impl<'de> Deserialize<'de> for Count {
    fn deserialize<D: Deserializer<'de>>(deserializer: D) -> Result<Self, D::Error> {
        let units: Vec<()> = Deserialize::deserialize(deserializer)?;
        Ok(Count(units.len()))
    }
}

fn pair<S, T>(serializer: S, bytes: Vec<u8>, values: &T) -> Result<S::Ok, S::Error>
where
    S: Serializer,
    T: Serialize,
{
    let mut pair = serializer.serialize_tuple(2)?;
    pair.serialize_element(&TreeBytes(bytes))?;
    pair.serialize_element(values)?;
    pair.end()
}

/// The pair of the tree bytes and the values in key order. It is an error if a node is too deep for
/// the tree bytes.
impl<K: Bytes, V: Serialize> Serialize for GenericPatriciaMap<K, V> {
    fn serialize<S>(&self, serializer: S) -> Result<S::Ok, S::Error>
    where
        S: Serializer,
    {
        let bytes = self.tree_bytes().map_err(S::Error::custom)?;
        pair(serializer, bytes, &Values(self))
    }
}

/// The pair of the tree bytes and a unit for each element. It is an error if a node is too deep for
/// the tree bytes.
impl<T: Bytes> Serialize for GenericPatriciaSet<T> {
    fn serialize<S>(&self, serializer: S) -> Result<S::Ok, S::Error>
    where
        S: Serializer,
    {
        let bytes = self.tree_bytes().map_err(S::Error::custom)?;
        pair(serializer, bytes, &Units(self.len()))
    }
}

/// Reads the pair. It is an error if the bytes are not a whole tree with a value for each key.
impl<'de, K: Bytes, V: Deserialize<'de>> Deserialize<'de> for GenericPatriciaMap<K, V> {
    fn deserialize<D>(deserializer: D) -> Result<Self, D::Error>
    where
        D: Deserializer<'de>,
    {
        let (bytes, values): (TreeBytes, Vec<V>) = Deserialize::deserialize(deserializer)?;
        Self::from_tree_bytes(&bytes.0, values).map_err(D::Error::custom)
    }
}

/// Reads the pair. It is an error if the bytes are not a whole tree with a unit for each element.
impl<'de, T: Bytes> Deserialize<'de> for GenericPatriciaSet<T> {
    fn deserialize<D>(deserializer: D) -> Result<Self, D::Error>
    where
        D: Deserializer<'de>,
    {
        let (bytes, count): (TreeBytes, Count) = Deserialize::deserialize(deserializer)?;
        Self::from_tree_bytes(&bytes.0, count.0).map_err(D::Error::custom)
    }
}
