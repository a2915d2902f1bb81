//! Look-ups of many keys at once, whose waits for memory overlap.

use super::GenericPatriciaMap;
use crate::errors::{AllocError, need};
use crate::key::{Bytes, Key};
use crate::parts::Proved;
use crate::rt::alloc::Global;
use crate::rt::vec::Vec as ProvedVec;
use core::array;
use memory::vec::Vec;

/// How many keys are lent to the proved code at once.
const BLOCK: usize = 64;

/// Calls a closure at blocks of keys, each with the answers to it, for as many keys as both lists
/// have room for, a number that it returns.
fn by_blocks<'b, K: Bytes, Q: AsRef<K::Borrowed>, A>(
    keys: &'b [Q],
    answers: &mut [A],
    mut f: impl FnMut(&[Key<'b, K>], &mut [A]),
) -> usize
where
    K::Borrowed: 'b,
{
    let n = keys.len().min(answers.len());
    for (keys, answers) in keys[..n].chunks(BLOCK).zip(answers[..n].chunks_mut(BLOCK)) {
        let last = keys.len() - 1;
        let lent: [_; BLOCK] = array::from_fn(|i| Key::<K>::new(keys[i.min(last)].as_ref()));
        f(&lent[..keys.len()], answers);
    }
    n
}

/// A list of so many answers that are not yet known.
fn unknown<A: Copy>(answer: A, n: usize) -> Result<Vec<A>, AllocError> {
    ProvedVec::from_elem(Global, answer, n).map(|list| list.0)
}

/// Looks up for each key whether it is there.
pub(crate) fn contains_many_into<K: Bytes, Q: AsRef<K::Borrowed>, V>(
    map: &Proved<K, V>,
    keys: &[Q],
    found: &mut [bool],
) -> usize {
    by_blocks::<K, Q, _>(keys, found, |keys, found| {
        map.contains_many_into(keys, found);
    })
}

/// Returns for each key whether it is there.
pub(crate) fn try_contains_many<K: Bytes, Q: AsRef<K::Borrowed>, V>(
    map: &Proved<K, V>,
    keys: &[Q],
) -> Result<Vec<bool>, AllocError> {
    let mut found = unknown(false, keys.len())?;
    contains_many_into::<K, Q, V>(map, keys, &mut found);
    Ok(found)
}

/// Returns for each key its longest prefix that is a key of the map.
pub(crate) fn try_longest_keys<'b, K: Bytes, Q: AsRef<K::Borrowed>, V>(
    map: &Proved<K, V>,
    keys: &'b [Q],
) -> Result<Vec<Option<&'b K::Borrowed>>, AllocError> {
    let mut found = unknown(None, keys.len())?;
    by_blocks::<K, Q, _>(keys, &mut found, |keys, found| {
        let mut parts = [None; BLOCK];
        map.longest_keys_into(keys, &mut parts[..keys.len()]);
        for (part, found) in parts.iter().zip(found) {
            *found = part.map(|part: Key<'b, K>| part.get());
        }
    });
    Ok(found)
}

impl<K: Bytes, V> GenericPatriciaMap<K, V> {
    /// Looks many keys up, and returns the value of each.
    ///
    /// In a map that is larger than the processor's cache this is faster than `get` of each.
    ///
    /// ```
    /// use patricia::StringPatriciaMap;
    ///
    /// let map = StringPatriciaMap::from_iter([("a", 1), ("b", 2)]);
    /// assert_eq!(map.get_many(&["b", "c", "a"]), [Some(&2), None, Some(&1)]);
    /// ```
    pub fn get_many<Q: AsRef<K::Borrowed>>(&self, keys: &[Q]) -> Vec<Option<&V>> {
        need(self.try_get_many(keys))
    }

    /// Does as `get_many`, or returns an error if memory runs out for the list.
    pub fn try_get_many<Q>(&self, keys: &[Q]) -> Result<Vec<Option<&V>>, AllocError>
    where
        Q: AsRef<K::Borrowed>,
    {
        let mut found = unknown(None, keys.len())?;
        self.get_many_into(keys, &mut found);
        Ok(found)
    }

    /// Does as `get_many`, into a slice: for as many keys as both have room for, a number that it
    /// returns. It does not allocate.
    pub fn get_many_into<'a, Q>(&'a self, keys: &[Q], found: &mut [Option<&'a V>]) -> usize
    where
        Q: AsRef<K::Borrowed>,
    {
        by_blocks::<K, Q, _>(keys, found, |keys, found| {
            self.map.get_many_into(keys, found);
        })
    }

    /// Returns for each of many keys whether it is there.
    pub fn contains_many<Q: AsRef<K::Borrowed>>(&self, keys: &[Q]) -> Vec<bool> {
        need(self.try_contains_many(keys))
    }

    /// Does as `contains_many`, or returns an error if memory runs out for the list.
    pub fn try_contains_many<Q>(&self, keys: &[Q]) -> Result<Vec<bool>, AllocError>
    where
        Q: AsRef<K::Borrowed>,
    {
        try_contains_many::<K, Q, V>(&self.map, keys)
    }

    /// Does as `contains_many`, into a slice: for as many keys as both have room for, a number that
    /// it returns. It does not allocate.
    pub fn contains_many_into<Q>(&self, keys: &[Q], found: &mut [bool]) -> usize
    where
        Q: AsRef<K::Borrowed>,
    {
        contains_many_into::<K, Q, V>(&self.map, keys, found)
    }

    /// Returns for each of many keys the entry whose key is its longest prefix.
    pub fn longest_many<'b, Q>(&self, keys: &'b [Q]) -> Vec<Option<(&'b K::Borrowed, &V)>>
    where
        Q: AsRef<K::Borrowed>,
    {
        need(self.try_longest_many(keys))
    }

    /// Does as `longest_many`, or returns an error if memory runs out for the list.
    #[allow(clippy::type_complexity)]
    pub fn try_longest_many<'b, Q>(
        &self,
        keys: &'b [Q],
    ) -> Result<Vec<Option<(&'b K::Borrowed, &V)>>, AllocError>
    where
        Q: AsRef<K::Borrowed>,
    {
        let mut found = unknown(None, keys.len())?;
        self.longest_many_into(keys, &mut found);
        Ok(found)
    }

    /// Does as `longest_many`, into a slice: for as many keys as both have room for, a number that
    /// it returns. It does not allocate.
    pub fn longest_many_into<'a, 'b, Q>(
        &'a self,
        keys: &'b [Q],
        found: &mut [Option<(&'b K::Borrowed, &'a V)>],
    ) -> usize
    where
        Q: AsRef<K::Borrowed>,
    {
        by_blocks::<K, Q, _>(keys, found, |keys, found| {
            let mut entries = [None; BLOCK];
            self.map.longest_many_into(keys, &mut entries[..keys.len()]);
            for (entry, found) in entries.iter().zip(found) {
                *found = entry.map(|(key, value): (Key<'b, K>, &'a V)| (key.get(), value));
            }
        })
    }
}
