//! Random calls of every kind, of maps and of sets, whose answers nobody looks at.

use crate::faults::{OwnedUnits, Units, kind};
use patricia::{GenericPatriciaMap, GenericPatriciaSet};
use std::hash::{DefaultHasher, Hash};
use std::hint::black_box;
use std::ops::Bound;

/// Numbers that look random, the same for each run.
pub struct Random(pub u64);

impl Random {
    /// The next number, which is below `n`.
    pub fn below(&mut self, n: usize) -> usize {
        self.0 = self.0.wrapping_add(0x9e37_79b9_7f4a_7c15);
        let mut mixed = self.0;
        mixed = (mixed ^ (mixed >> 30)).wrapping_mul(0xbf58_476d_1ce4_e5b9);
        mixed = (mixed ^ (mixed >> 27)).wrapping_mul(0x94d0_49bb_1331_11eb);
        ((mixed ^ (mixed >> 31)) % n as u64) as usize
    }

    /// A key of few items of few values, and now and then a long one.
    pub fn key(&mut self) -> OwnedUnits {
        let items = match self.below(60) {
            0 => 150 + self.below(150),
            _ => self.below(7),
        };
        let bytes = (0..items * kind().width).map(|_| self.below(2) as u8 * 7);
        OwnedUnits::of(bytes.collect())
    }

    /// A few keys, each with a value.
    fn entries(&mut self) -> Vec<(OwnedUnits, u32)> {
        let n = self.below(40);
        (0..n).map(|at| (self.key(), at as u32)).collect()
    }

    /// A few keys.
    fn keys(&mut self) -> Vec<OwnedUnits> {
        self.entries().into_iter().map(|entry| entry.0).collect()
    }

    /// A range of keys.
    fn bounds(&mut self) -> (Bound<OwnedUnits>, Bound<OwnedUnits>) {
        let mut bound = || match self.below(3) {
            0 => Bound::Unbounded,
            1 => Bound::Included(self.key()),
            _ => Bound::Excluded(self.key()),
        };
        (bound(), bound())
    }
}

type Map = GenericPatriciaMap<OwnedUnits, u32>;
type Set = GenericPatriciaSet<OwnedUnits>;

/// Does nothing with what it is lent.
fn see<T: ?Sized>(lent: &T) {
    black_box(std::ptr::from_ref(lent));
}

/// What the calls are at: two maps and two sets.
pub struct Place {
    map: Map,
    aside: Map,
    set: Set,
    other: Set,
}

/// Calls one of some expressions.
macro_rules! one_of {
    ($random:expr; $($call:expr),* $(,)?) => {{
        let calls = [$(stringify!($call)),*].len();
        let chosen = $random.below(calls);
        let mut at = 0;
        $(
            if at == chosen {
                let _ = black_box($call);
            }
            at += 1;
        )*
        black_box(at);
    }};
}

/// Walks a cursor to its end, and now and then passes entries.
macro_rules! walk {
    ($cursor:expr, $random:expr) => {{
        let mut cursor = $cursor;
        while cursor.advance() {
            black_box((cursor.key().is_some(), cursor.value().is_some()));
            if $random.below(4) == 0 {
                cursor.skip($random.below(4));
            }
        }
        cursor.advance()
    }};
}

/// Adds to values until an iterator ends.
macro_rules! add {
    ($values:expr) => {
        for value in $values {
            *value = value.wrapping_add(1);
        }
    };
}

impl Place {
    pub fn new() -> Self {
        Place {
            map: Map::new(),
            aside: Map::new(),
            set: Set::new(),
            other: Set::new(),
        }
    }

    /// Calls at random.
    pub fn call(&mut self, random: &mut Random) {
        match random.below(13) {
            0..3 => self.insert(random),
            3 => self.look(random),
            4 => self.walk(random),
            5 => self.lend(random),
            6 => self.remove(random),
            7 => self.combine(random),
            8 => self.see(random),
            9 => self.store(random),
            10 => self.insert_element(random),
            11 => self.look_at_set(random),
            _ => self.combine_sets(random),
        }
    }

    fn insert(&mut self, random: &mut Random) {
        let (map, key) = (&mut self.map, random.key());
        one_of!(random;
            map.insert(&key, 1),
            map.try_insert(&key, 2),
            map.insert_with(&key, || 3),
            map.get_or_insert_with(&key, || 4),
            map.update(&key, |value| *value),
            map.get_mut(&key),
            map.extend(random.entries()),
            map.try_extend(random.entries()),
            map.sorted_load(random.entries()),
            map.sorted_load([(&key, 5)]),
        );
    }

    fn look(&mut self, random: &mut Random) {
        let (map, key) = (&mut self.map, random.key());
        let units: &Units = key.as_ref();
        one_of!(random;
            map.get(&key),
            map.contains_key(&key),
            map.get_longest_common_prefix(units),
            map.get_longest_common_prefix_mut(units),
            map.longest_common_prefix_len(units),
            map.common_prefixes(units).count(),
            map.common_prefix_values(units).count(),
            map.common_prefix_values_owned(key.clone()).count(),
            map.count_prefix(&key),
            (map.len(), map.is_empty()),
            (map.first_key_value(), map.last_key_value()),
            (map.first_after(&key), map.last_before(&key)),
            map.get_many(&random.keys()),
            map.contains_many(&random.keys()),
            map.longest_many(&random.keys()),
            map.get_many_into(&random.keys(), &mut [None; 7]),
            map.contains_many_into(&random.keys(), &mut [false; 7]),
            map.longest_many_into(&random.keys(), &mut [None; 7]),
        );
    }

    fn walk(&mut self, random: &mut Random) {
        let (map, key) = (&self.map, random.key());
        let units: &Units = key.as_ref();
        one_of!(random;
            map.iter().count(),
            map.keys().count(),
            map.values().count(),
            map.iter_prefix(units).count(),
            map.range(random.bounds()).count(),
            map.within(units, random.below(4) as u32).count(),
            walk!(map.cursor(), random),
            walk!(map.cursor_prefix(units), random),
            walk!(map.cursor_from(units), random),
            walk!(map.cursor_range(random.bounds()), random),
            map.cursor().next_entry(),
            map.for_each(|_, value| see(value)),
            map.for_each_prefix(units, |_, value| see(value)),
            map.clone().into_iter().count(),
            map.clone().into_iter().nth(random.below(9)),
        );
    }

    fn lend(&mut self, random: &mut Random) {
        let (map, key) = (&mut self.map, random.key());
        one_of!(random;
            add!(map.iter_mut().map(|entry| entry.1)),
            add!(map.iter_prefix_mut(key.as_ref()).map(|entry| entry.1)),
            add!(map.values_mut()),
            add!(map.iter_mut().map(|entry| entry.1).skip(random.below(5))),
        );
    }

    fn remove(&mut self, random: &mut Random) {
        let (map, key) = (&mut self.map, random.key());
        one_of!(random;
            map.remove(&key),
            map.remove(&key),
            map.try_remove(&key),
            map.remove_prefix(&key),
            self.aside = map.split_by_prefix(&key),
            map.retain(|_, _| random.below(5) > 0),
            (map.pop_first(), map.pop_last()),
            if random.below(9) == 0 { map.clear() },
        );
    }

    fn combine(&mut self, random: &mut Random) {
        let (map, aside) = (&mut self.map, &mut self.aside);
        one_of!(random;
            map.append(aside),
            map.merge_with(std::mem::take(aside), |old, new| *old ^= new),
            map.merge_with(aside.clone(), |old, new| *old ^= new),
            *aside = random.entries().into_iter().collect(),
            *map = random.entries().into_iter().collect(),
            *aside = Map::try_from_iter(random.entries()).unwrap_or_default(),
            *aside = Map::from_sorted_iter(random.entries()).unwrap_or_default(),
            *aside = Map::from([(random.key(), 1), (random.key(), 2)]),
            std::mem::swap(map, aside),
        );
    }

    fn see(&mut self, random: &mut Random) {
        let (map, aside, key) = (&self.map, &self.aside, random.key());
        one_of!(random;
            map == aside,
            map == &map.clone(),
            map.cmp(aside),
            map.hash(&mut DefaultHasher::new()),
            format!("{map:?}"),
            map.contains_key(&key).then(|| map[&key]),
        );
    }

    fn store(&mut self, random: &mut Random) {
        let Place { map, set, .. } = self;
        let count = map.len();
        let values = || (0..count as u32).collect();
        let bytes = map.tree_bytes().unwrap_or_default();
        let wide = map.wide_tree_bytes().unwrap_or_default();
        one_of!(random;
            *map = Map::from_tree_bytes(&bytes, values()).unwrap_or_default(),
            *map = Map::from_wide_tree_bytes(&wide, values()).unwrap_or_default(),
            *set = Set::from_tree_bytes(&bytes, count).unwrap_or_default(),
            *set = Set::from_wide_tree_bytes(&wide, count).unwrap_or_default(),
            (set.tree_bytes(), set.wide_tree_bytes()),
        );
    }

    fn insert_element(&mut self, random: &mut Random) {
        let (set, key) = (&mut self.set, random.key());
        one_of!(random;
            set.insert(&key),
            set.insert(&key),
            set.remove(&key),
            set.extend(random.keys()),
            set.sorted_load(random.keys()),
            set.retain(|_| random.below(5) > 0),
            (set.pop_first(), set.pop_last()),
            set.remove_prefix(&key),
            self.other = set.split_by_prefix(&key),
            *set = random.keys().into_iter().collect(),
            *set = Set::from_sorted_iter(random.keys()).unwrap_or_default(),
            *set = Set::from([random.key(), random.key()]),
        );
    }

    fn look_at_set(&mut self, random: &mut Random) {
        let (set, key) = (&self.set, random.key());
        let units: &Units = key.as_ref();
        one_of!(random;
            set.contains(&key),
            set.get_longest_common_prefix(units).is_some(),
            set.longest_common_prefix_len(units),
            set.common_prefixes(units).count(),
            set.count_prefix(&key),
            (set.first(), set.last(), set.len(), set.is_empty()),
            (set.first_after(&key), set.last_before(&key)),
            set.iter().count(),
            set.iter_prefix(units).count(),
            set.range(random.bounds()).count(),
            set.within(units, random.below(4) as u32).count(),
            walk!(set.cursor(), random),
            walk!(set.cursor_prefix(units), random),
            walk!(set.cursor_from(units), random),
            walk!(set.cursor_range(random.bounds()), random),
            set.for_each(see),
            set.contains_many(&random.keys()),
            set.longest_many(&random.keys()).len(),
        );
    }

    fn combine_sets(&mut self, random: &mut Random) {
        let (set, other) = (&mut self.set, &mut self.other);
        one_of!(random;
            *set = set.union(other),
            *set = set.intersection(other),
            *set = set.difference(other),
            (&*set | &*other, &*set & &*other, &*set - &*other),
            (set.is_subset(other), set.is_superset(other), set.is_disjoint(other)),
            (*set == *other, (*set).cmp(other)),
            set.hash(&mut DefaultHasher::new()),
            format!("{set:?}"),
            set.clone().into_iter().count(),
            set.append(other),
            std::mem::swap(set, other),
            if random.below(9) == 0 { set.clear() },
        );
    }
}
