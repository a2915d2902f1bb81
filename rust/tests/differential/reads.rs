//! Calls that read.

use crate::common::{Kind, bytes, floor, lend};
use crate::pair::{Entries, Pair, along, check, modelled, owned, under};
use patricia::BorrowedBytes;
use std::ops::Bound;

impl<K: Kind> Pair<K> {
    pub fn look_up(&mut self) {
        let key = self.key();
        let q = lend::<K>(&key);
        assert_eq!(self.map.get(q), self.model.get(&key));
        assert_eq!(self.map.contains_key(q), self.model.contains_key(&key));
        let wanted = along(&self.model, &key);
        let found = self.map.common_prefixes(q);
        let found: Entries = found.map(|(k, v)| (k.as_bytes().to_vec(), *v)).collect();
        assert_eq!(found, wanted);
        let values: Vec<u32> = self.map.common_prefix_values(q).copied().collect();
        assert!(values.iter().eq(wanted.iter().map(|entry| &entry.1)));
        let longest = self.map.get_longest_common_prefix(q);
        let longest = longest.map(|(k, v)| (k.as_bytes().to_vec(), *v));
        assert_eq!(longest.as_ref(), wanted.last());
        let shared = |other: &Vec<u8>| key.iter().zip(other).take_while(|(x, y)| x == y).count();
        let reach = self.model.keys().map(shared).max().unwrap_or(0);
        assert_eq!(
            self.map.longest_common_prefix_len(q),
            floor::<K>(&key, reach)
        );
    }

    pub fn look_many_up(&mut self) {
        let keys: Vec<Vec<u8>> = (0..self.random.below(200)).map(|_| self.key()).collect();
        let lent: Vec<&K::Lent> = keys.iter().map(|key| lend::<K>(key)).collect();
        let wanted: Vec<_> = keys.iter().map(|key| self.model.get(key)).collect();
        assert_eq!(self.map.get_many(&lent), wanted);
        let is_there: Vec<bool> = wanted.iter().map(|value| value.is_some()).collect();
        assert_eq!(self.map.contains_many(&lent), is_there);
        let room = self.random.below(keys.len() + 70);
        let mut found = vec![None; room];
        let n = self.map.get_many_into(&lent, &mut found);
        assert_eq!(n, room.min(keys.len()));
        assert_eq!(found[..n], wanted[..n]);
        let longest = self.map.longest_many(&lent);
        assert_eq!(longest.len(), keys.len());
        for (key, entry) in keys.iter().zip(longest) {
            let entry = entry.map(|(k, v)| (k.as_bytes().to_vec(), *v));
            assert_eq!(entry.as_ref(), along(&self.model, key).last());
        }
    }

    pub fn look_under(&mut self) {
        let key = self.key();
        let q = lend::<K>(&key);
        let wanted = under(&self.model, &key);
        assert_eq!(owned(self.map.iter_prefix(q)), wanted);
        assert_eq!(self.map.count_prefix(q), wanted.len());
        let mut visited = Vec::new();
        self.map
            .for_each_prefix(q, |k, v| visited.push((k.as_bytes().to_vec(), *v)));
        assert_eq!(visited, wanted);
        let mut cursor = self.map.cursor_prefix(q);
        for (k, v) in &wanted {
            assert!(cursor.advance());
            assert_eq!(cursor.key_bytes(), Some(k.as_slice()));
            assert_eq!(cursor.value(), Some(v));
        }
        assert!(!cursor.advance() && cursor.key().is_none());
    }

    pub fn look_at_ends(&mut self) {
        let key = self.key();
        let q = lend::<K>(&key);
        let made = |entry: Option<(K, &u32)>| entry.map(|(k, v)| (bytes(&k), *v));
        let wanted = |entry: Option<(&Vec<u8>, &u32)>| entry.map(|(k, v)| (k.clone(), *v));
        let behind = (Bound::Excluded(key.clone()), Bound::Unbounded);
        let after = self.model.range(behind).next();
        assert_eq!(made(self.map.first_after(q)), wanted(after));
        let before = self.model.range(..key.clone()).next_back();
        assert_eq!(made(self.map.last_before(q)), wanted(before));
        let first = self.model.first_key_value();
        assert_eq!(made(self.map.first_key_value()), wanted(first));
        let last = self.model.last_key_value();
        assert_eq!(made(self.map.last_key_value()), wanted(last));
    }

    pub fn bound(&mut self) -> Bound<Vec<u8>> {
        match self.random.below(5) {
            0 => Bound::Unbounded,
            1 | 2 => Bound::Included(self.key()),
            _ => Bound::Excluded(self.key()),
        }
    }

    pub fn look_between(&mut self) {
        let (start, end) = (self.bound(), self.bound());
        let is_in = |key: &Vec<u8>| {
            let is_behind = match &start {
                Bound::Included(start) => key >= start,
                Bound::Excluded(start) => key > start,
                Bound::Unbounded => true,
            };
            is_behind
                && match &end {
                    Bound::Included(end) => key <= end,
                    Bound::Excluded(end) => key < end,
                    Bound::Unbounded => true,
                }
        };
        let wanted = modelled(self.model.iter().filter(|entry| is_in(entry.0)));
        let range = (
            start.as_ref().map(|key| lend::<K>(key)),
            end.as_ref().map(|key| lend::<K>(key)),
        );
        assert_eq!(owned(self.map.range::<&K::Lent, _>(range)), wanted);
        let mut cursor = self.map.cursor_range::<&K::Lent, _>(range);
        let made = std::iter::from_fn(|| cursor.next_entry());
        assert_eq!(owned(made), wanted);
        let Bound::Included(key) = &start else { return };
        let mut cursor = self.map.cursor_from(lend::<K>(key));
        let made = std::iter::from_fn(|| cursor.next_entry());
        assert_eq!(owned(made), modelled(self.model.range(key.clone()..)));
    }

    /// Walks with a cursor that passes what lies under parts of keys.
    pub fn skip(&mut self) {
        let mut cursor = self.map.cursor();
        let mut passed: Option<Vec<u8>> = None;
        for (key, value) in &self.model {
            if passed.as_ref().is_some_and(|front| key.starts_with(front)) {
                continue;
            }
            assert!(cursor.advance());
            assert_eq!(cursor.key_bytes(), Some(key.as_slice()));
            assert_eq!(cursor.value(), Some(value));
            if self.random.below(3) == 0 {
                let n = self.random.below(key.len() + 3).min(key.len());
                cursor.skip(n);
                passed = Some(key[..floor::<K>(key, n)].to_vec());
            }
        }
        assert!(!cursor.advance() && !cursor.advance());
    }

    pub fn walk(&mut self) {
        check(&self.map, &self.model);
        let keys: Vec<Vec<u8>> = self.map.keys().map(|key| bytes(&key)).collect();
        assert!(keys.iter().eq(self.model.keys()));
        assert!(self.map.values().eq(self.model.values()));
        let mut visited = Vec::new();
        self.map
            .for_each(|k, v| visited.push((k.as_bytes().to_vec(), *v)));
        assert_eq!(visited, modelled(self.model.iter()));
        let mut iter = self.map.iter();
        let n = self.random.below(self.model.len() + 1);
        assert_eq!(iter.by_ref().take(n).count(), n);
        assert_eq!(iter.len(), self.model.len() - n);
        let mut into = self.map.clone().into_iter();
        for (k, v) in self.model.iter().take(n) {
            let (key, value) = into.next().unwrap();
            assert_eq!((bytes(&key), value), (k.clone(), *v));
        }
        assert_eq!(into.len(), self.model.len() - n);
    }
}
