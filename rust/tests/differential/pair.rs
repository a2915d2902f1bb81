//! A map, and what it should be.

use crate::common::{Kind, Random, any_key, bytes, floor, lend};
use patricia::{BorrowedBytes, GenericPatriciaMap};
use std::collections::BTreeMap;

pub type Model = BTreeMap<Vec<u8>, u32>;

/// Entries, each with the bytes of its key.
pub type Entries = Vec<(Vec<u8>, u32)>;

/// A map, and what it should be.
pub struct Pair<K> {
    pub map: GenericPatriciaMap<K, u32>,
    pub model: Model,
    pub random: Random,
}

pub fn owned<'a, K: Kind>(entries: impl Iterator<Item = (K, &'a u32)>) -> Entries {
    entries.map(|(key, value)| (bytes(&key), *value)).collect()
}

pub fn modelled<'a>(entries: impl Iterator<Item = (&'a Vec<u8>, &'a u32)>) -> Entries {
    entries.map(|(key, value)| (key.clone(), *value)).collect()
}

/// The entries under a prefix.
pub fn under(model: &Model, prefix: &[u8]) -> Entries {
    modelled(model.iter().filter(|(key, _)| key.starts_with(prefix)))
}

/// The entries whose keys are prefixes of a key.
pub fn along(model: &Model, key: &[u8]) -> Entries {
    modelled(model.iter().filter(|(prefix, _)| key.starts_with(prefix)))
}

pub fn check<K: Kind>(map: &GenericPatriciaMap<K, u32>, model: &Model) {
    assert_eq!((map.len(), map.is_empty()), (model.len(), model.is_empty()));
    assert_eq!(owned(map.iter()), modelled(model.iter()));
}

/// Puts a value into both, as a merge does.
pub fn joined(old: u32, new: u32) -> u32 {
    old.wrapping_mul(3).wrapping_add(new)
}

impl<K: Kind> Pair<K> {
    pub fn new(seed: u64) -> Self {
        Pair {
            map: GenericPatriciaMap::new(),
            model: Model::new(),
            random: Random::new(seed),
        }
    }

    pub fn value(&mut self) -> u32 {
        self.random.number() as u32
    }

    /// A new key, or one that is there, or a part of one.
    pub fn key(&mut self) -> Vec<u8> {
        if self.random.below(3) == 0 && !self.model.is_empty() {
            let at = self.random.below(self.model.len());
            let mut key = self.model.keys().nth(at).unwrap().clone();
            if self.random.below(3) == 0 {
                let n = self.random.below(key.len() + 1);
                key.truncate(floor::<K>(&key, n));
            }
            return key;
        }
        any_key::<K>(&mut self.random)
    }

    /// Entries in no order, with keys that come twice.
    pub fn entries(&mut self, most: usize) -> Entries {
        let count = self.random.below(most);
        (0..count).map(|_| (self.key(), self.value())).collect()
    }

    pub fn insert(&mut self) {
        let (key, value) = (self.key(), self.value());
        let q = lend::<K>(&key);
        let old = match self.random.below(2) {
            0 => self.map.insert(q, value),
            _ => self.map.try_insert(q, value).unwrap(),
        };
        assert_eq!(old, self.model.insert(key, value));
    }

    pub fn remove(&mut self) {
        let key = self.key();
        let q = lend::<K>(&key);
        let old = match self.random.below(2) {
            0 => self.map.remove(q),
            _ => self.map.try_remove(q).unwrap(),
        };
        assert_eq!(old, self.model.remove(&key));
    }

    pub fn change_one(&mut self) {
        let (key, by) = (self.key(), self.value());
        let q = lend::<K>(&key);
        let wanted = self.model.get_mut(&key).map(|value| {
            *value ^= by;
            *value
        });
        let changed = match self.random.below(2) {
            0 => self.map.get_mut(q).map(|value| {
                *value ^= by;
                *value
            }),
            _ => self.map.update(q, |value| {
                *value ^= by;
                *value
            }),
        };
        assert_eq!(changed, wanted);
        if let Some((part, value)) = self.map.get_longest_common_prefix_mut(q) {
            *value ^= by;
            *self.model.get_mut(part.as_bytes()).unwrap() ^= by;
        }
    }

    pub fn insert_missing(&mut self) {
        let (key, value) = (self.key(), self.value());
        let q = lend::<K>(&key);
        if self.random.below(2) == 0 {
            let is_new = self.map.insert_with(q, || value);
            assert_eq!(is_new, !self.model.contains_key(&key));
            self.model.entry(key).or_insert(value);
        } else {
            let at = self.map.get_or_insert_with(q, || value);
            *at = at.wrapping_add(1);
            let wanted = self.model.entry(key).or_insert(value);
            *wanted = wanted.wrapping_add(1);
        }
    }
}
