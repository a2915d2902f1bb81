//! Calls that change a map, or make one.

use crate::common::{Kind, bytes, lend};
use crate::pair::{Entries, Model, Pair, check, joined, modelled, owned, under};
use patricia::{BorrowedBytes, GenericPatriciaMap};

impl<K: Kind> Pair<K> {
    /// Takes all loans before it writes to any of them.
    pub fn lend_all(&mut self) {
        let by = self.value();
        let mut lent: Vec<(K, &mut u32)> = self.map.iter_mut().collect();
        assert_eq!(lent.len(), self.model.len());
        for ((key, value), (k, v)) in lent.iter_mut().zip(&mut self.model) {
            assert_eq!((bytes(key), &**value), (k.clone(), &*v));
            **value = value.wrapping_add(by);
            *v = v.wrapping_add(by);
        }
        let prefix = self.key();
        let mut lent: Vec<(K, &mut u32)> = self.map.iter_prefix_mut(lend::<K>(&prefix)).collect();
        let is_under = |entry: &(&Vec<u8>, &mut u32)| entry.0.starts_with(&prefix);
        let mut wanted: Vec<_> = self.model.iter_mut().filter(is_under).collect();
        assert_eq!(lent.len(), wanted.len());
        for ((key, value), (k, v)) in lent.iter_mut().zip(&mut wanted) {
            assert_eq!((&bytes(key), &**value), (*k, &**v));
            **value ^= by;
            **v ^= by;
        }
        let lent: Vec<&mut u32> = self.map.values_mut().collect();
        assert!(lent.iter().map(|v| &**v).eq(self.model.values()));
        for (at, value) in lent.into_iter().enumerate() {
            *value = value.wrapping_add(at as u32);
        }
        for (at, value) in self.model.values_mut().enumerate() {
            *value = value.wrapping_add(at as u32);
        }
    }

    pub fn split_and_merge(&mut self) {
        let key = self.key();
        let q = lend::<K>(&key);
        let mut part = match self.random.below(2) {
            0 => self.map.split_by_prefix(q),
            _ => self.map.try_split_by_prefix(q).unwrap(),
        };
        let taken: Model = under(&self.model, &key).into_iter().collect();
        self.model.retain(|k, _| !k.starts_with(&key));
        check(&part, &taken);
        check(&self.map, &self.model);
        match self.random.below(3) {
            0 => {
                assert_eq!(part.remove_prefix(q), taken.len());
                assert_eq!((part.remove_prefix(q), part.len()), (0, 0));
            }
            1 => {
                self.map.append(&mut part);
                assert!(part.is_empty());
                self.model.extend(taken);
            }
            _ => {
                self.map.merge_with(part, |_, _| unreachable!());
                self.model.extend(taken);
            }
        }
    }

    pub fn merge(&mut self) {
        let entries: Model = self.entries(40).into_iter().collect();
        let pairs = entries.iter().map(|(k, v)| (lend::<K>(k), *v));
        let mut other: GenericPatriciaMap<K, u32> = pairs.collect();
        check(&other, &entries);
        if self.random.below(2) == 0 {
            self.map.append(&mut other);
            assert!(other.is_empty());
            self.model.extend(entries);
            return;
        }
        self.map
            .merge_with(other, |old, new| *old = joined(*old, new));
        for (key, value) in entries {
            let old = self.model.entry(key);
            old.and_modify(|old| *old = joined(*old, value))
                .or_insert(value);
        }
    }

    pub fn extend(&mut self) {
        let entries = self.entries(60);
        self.map
            .extend(entries.iter().map(|(k, v)| (lend::<K>(k), *v)));
        self.model.extend(entries);
    }

    pub fn retain(&mut self) {
        let (salt, parts) = (self.value(), 1 + self.random.below(4) as u32);
        let is_kept = |key: &[u8], value: &mut u32| {
            *value = value.wrapping_add(key.len() as u32);
            (*value ^ salt) % (parts + 1) < parts
        };
        let mut asked = Vec::new();
        self.map.retain(|key, value| {
            asked.push(key.as_bytes().to_vec());
            is_kept(key.as_bytes(), value)
        });
        assert!(asked.iter().eq(self.model.keys()));
        self.model.retain(|key, value| is_kept(key, value));
    }

    pub fn pop(&mut self) {
        for _ in 0..self.random.below(5) {
            let first = self.map.pop_first();
            let first = first.map(|(k, v)| (bytes(&k), v));
            assert_eq!(first, self.model.pop_first());
            let last = self.map.pop_last();
            let last = last.map(|(k, v)| (bytes(&k), v));
            assert_eq!(last, self.model.pop_last());
        }
    }

    pub fn clear(&mut self) {
        if self.random.below(4) == 0 {
            self.map.clear();
            self.model.clear();
        }
    }

    pub fn collect(&mut self) {
        let entries = self.entries(80);
        let pairs = entries.iter().map(|(k, v)| (lend::<K>(k), *v));
        let map: GenericPatriciaMap<K, u32> = pairs.clone().collect();
        let model: Model = entries.iter().cloned().collect();
        check(&map, &model);
        let mut other = GenericPatriciaMap::<K, u32>::try_from_iter(pairs).unwrap();
        assert!(map == other);
        let is_equal = |x: &Model, y: &Model| x == y;
        assert_eq!(map == self.map, is_equal(&model, &self.model));
        if let Some((key, value)) = model.iter().next() {
            other.insert(lend::<K>(key), value ^ 1);
            assert!(map != other);
        }
        assert_eq!(map.partial_cmp(&self.map), model.partial_cmp(&self.model));
        let (first, rest) = (0, self.random.below(self.model.len() + 1));
        let sorted: Entries = modelled(self.model.iter());
        let part = |from, to| sorted[from..to].iter().map(|(k, v)| (lend::<K>(k), *v));
        let mut loaded = GenericPatriciaMap::from_sorted_iter(part(first, rest)).unwrap();
        loaded.sorted_load(part(rest, sorted.len())).unwrap();
        assert!(loaded == self.map);
    }

    pub fn encode(&mut self) {
        let narrow = self.map.tree_bytes().unwrap();
        let wide = self.map.wide_tree_bytes().unwrap();
        let values = || self.model.values().copied().collect::<Vec<_>>();
        let mut order = modelled(self.model.iter());
        self.random.shuffle(&mut order);
        let mut other = GenericPatriciaMap::<K, u32>::new();
        for (key, value) in &order {
            other.insert(lend::<K>(key), *value);
        }
        assert_eq!(other.tree_bytes().unwrap(), narrow);
        assert_eq!(other.wide_tree_bytes().unwrap(), wide);
        let read = GenericPatriciaMap::<K, u32>::from_tree_bytes(&narrow, values());
        check(&read.unwrap(), &self.model);
        let read = GenericPatriciaMap::<K, u32>::from_wide_tree_bytes(&wide, values());
        check(&read.unwrap(), &self.model);
        let cut = self.random.below(narrow.len());
        assert!(GenericPatriciaMap::<K, u32>::from_tree_bytes(&narrow[..cut], values()).is_err());
        let cut = self.random.below(wide.len());
        assert!(
            GenericPatriciaMap::<K, u32>::from_wide_tree_bytes(&wide[..cut], values()).is_err()
        );
        let mut many = values();
        many.push(0);
        assert!(GenericPatriciaMap::<K, u32>::from_tree_bytes(&narrow, many).is_err());
        self.damage(narrow);
    }

    /// Damaged bytes are refused, or are another tree: that is a map which works.
    pub fn damage(&mut self, mut bytes: Vec<u8>) {
        for _ in 0..1 + self.random.below(3) {
            let at = self.random.below(bytes.len());
            bytes[at] ^= 1 << self.random.below(8);
        }
        let values: Vec<u32> = self.model.values().copied().collect();
        let wide = GenericPatriciaMap::<K, u32>::from_wide_tree_bytes(&bytes, values.clone());
        let narrow = GenericPatriciaMap::<K, u32>::from_tree_bytes(&bytes, values);
        for read in [wide, narrow].into_iter().flatten() {
            let model: Model = owned(read.iter()).into_iter().collect();
            check(&read, &model);
            for (key, value) in &model {
                assert_eq!(read.get(lend::<K>(key)), Some(value));
            }
        }
    }
}
