//! Two sets against two of std's.

use crate::common::{Kind, Random, UnitKey, any_key, bytes, floor, for_seeds, lend};
use patricia::{BorrowedBytes, GenericPatriciaSet};
use std::collections::BTreeSet;
use std::ops::Bound;

type Model = BTreeSet<Vec<u8>>;

/// A set, and what it should be.
struct Pair<T> {
    set: GenericPatriciaSet<T>,
    model: Model,
}

fn owned<T: Kind>(elements: impl Iterator<Item = T>) -> Vec<Vec<u8>> {
    elements.map(|element| bytes(&element)).collect()
}

fn listed<'a>(elements: impl Iterator<Item = &'a Vec<u8>>) -> Vec<Vec<u8>> {
    elements.cloned().collect()
}

impl<T: Kind> Pair<T> {
    fn new() -> Self {
        Pair {
            set: GenericPatriciaSet::new(),
            model: Model::new(),
        }
    }

    fn check(&self) {
        let (set, model) = (&self.set, &self.model);
        assert_eq!((set.len(), set.is_empty()), (model.len(), model.is_empty()));
        assert_eq!(owned(set.iter()), listed(model.iter()));
        let mut visited = Vec::new();
        set.for_each(|element| visited.push(element.as_bytes().to_vec()));
        assert_eq!(visited, listed(model.iter()));
    }

    fn key(&self, random: &mut Random) -> Vec<u8> {
        if random.below(3) == 0 && !self.model.is_empty() {
            let at = random.below(self.model.len());
            let mut key = self.model.iter().nth(at).unwrap().clone();
            if random.below(3) == 0 {
                let n = random.below(key.len() + 1);
                key.truncate(floor::<T>(&key, n));
            }
            return key;
        }
        any_key::<T>(random)
    }

    fn change(&mut self, random: &mut Random) {
        let key = self.key(random);
        let q = lend::<T>(&key);
        match random.below(20) {
            0..8 => assert_eq!(self.set.insert(q), self.model.insert(key)),
            8..14 => assert_eq!(self.set.remove(q), self.model.remove(&key)),
            14 => assert_eq!(
                self.set.pop_first().map(|key| bytes(&key)),
                self.model.pop_first()
            ),
            15 => assert_eq!(
                self.set.pop_last().map(|key| bytes(&key)),
                self.model.pop_last()
            ),
            16 => {
                let keys: Vec<_> = (0..random.below(30)).map(|_| self.key(random)).collect();
                self.set.extend(keys.iter().map(|key| lend::<T>(key)));
                self.model.extend(keys);
            }
            17 => {
                let salt = random.below(9);
                let is_kept = |key: &[u8]| (key.len() + salt) % 7 != 0;
                self.set.retain(|key| is_kept(key.as_bytes()));
                self.model.retain(|key| is_kept(key));
            }
            _ => self.take_part(&key, random),
        }
    }

    fn take_part(&mut self, prefix: &[u8], random: &mut Random) {
        let q = lend::<T>(prefix);
        let under = self.model.iter().filter(|key| key.starts_with(prefix));
        let part: Model = under.cloned().collect();
        assert_eq!(self.set.count_prefix(q), part.len());
        self.model.retain(|key| !key.starts_with(prefix));
        if random.below(2) == 0 {
            assert_eq!(self.set.remove_prefix(q), part.len());
            return;
        }
        let mut taken = self.set.split_by_prefix(q);
        assert_eq!(owned(taken.iter()), listed(part.iter()));
        self.check();
        self.set.append(&mut taken);
        assert!(taken.is_empty());
        self.model.extend(part);
    }

    fn look(&self, random: &mut Random) {
        let key = self.key(random);
        let (set, model, q) = (&self.set, &self.model, lend::<T>(&key));
        assert_eq!(set.contains(q), model.contains(&key));
        let along: Vec<_> = model.iter().filter(|k| key.starts_with(k)).collect();
        let found = set.common_prefixes(q).map(|k| k.as_bytes());
        assert!(found.eq(along.iter().map(|k| k.as_slice())));
        let longest = set.get_longest_common_prefix(q).map(|k| k.as_bytes());
        assert_eq!(longest, along.last().map(|k| k.as_slice()));
        let under = listed(model.iter().filter(|k| k.starts_with(&key)));
        assert_eq!(owned(set.iter_prefix(q)), under);
        let mut cursor = set.cursor_prefix(q);
        let made = std::iter::from_fn(|| cursor.next_entry());
        assert_eq!(owned(made.map(|entry| entry.0)), under);
        let made = |element: Option<T>| element.map(|element| bytes(&element));
        let behind = (Bound::Excluded(key.clone()), Bound::Unbounded);
        let after = model.range(behind).next();
        assert_eq!(made(set.first_after(q)), after.cloned());
        let before = model.range(..key.clone()).next_back();
        assert_eq!(made(set.last_before(q)), before.cloned());
        assert_eq!(made(set.first()), model.first().cloned());
        assert_eq!(made(set.last()), model.last().cloned());
        assert_eq!(owned(set.range(q..)), listed(model.range(key.clone()..)));
        assert_eq!(owned(set.range(..q)), listed(model.range(..key.clone())));
    }

    fn look_many(&self, random: &mut Random) {
        let count = random.below(150);
        let keys: Vec<_> = (0..count).map(|_| self.key(random)).collect();
        let lent: Vec<&T::Lent> = keys.iter().map(|key| lend::<T>(key)).collect();
        let wanted: Vec<_> = keys.iter().map(|key| self.model.contains(key)).collect();
        assert_eq!(self.set.contains_many(&lent), wanted);
        let longest = self.set.longest_many(&lent);
        assert_eq!(longest.len(), count);
        for (key, found) in keys.iter().zip(longest) {
            let mut along = self.model.iter().filter(|k| key.starts_with(k));
            let wanted = along.next_back().map(|k| k.as_slice());
            assert_eq!(found.map(|k| k.as_bytes()), wanted);
        }
    }

    fn encode(&self, random: &mut Random) {
        let (set, model) = (&self.set, &self.model);
        let lent = || model.iter().map(|key| lend::<T>(key));
        let sorted = GenericPatriciaSet::<T>::from_sorted_iter(lent()).unwrap();
        let collected: GenericPatriciaSet<T> = lent().rev().collect();
        assert!(sorted == *set && collected == *set);
        let (narrow, wide) = (set.tree_bytes().unwrap(), set.wide_tree_bytes().unwrap());
        assert_eq!(collected.tree_bytes().unwrap(), narrow);
        let read = GenericPatriciaSet::<T>::from_tree_bytes(&narrow, model.len());
        assert!(read.unwrap() == *set);
        let read = GenericPatriciaSet::<T>::from_wide_tree_bytes(&wide, model.len());
        assert!(read.unwrap() == *set);
        for count in [model.len() + 1, model.len().wrapping_sub(1), usize::MAX] {
            assert!(GenericPatriciaSet::<T>::from_tree_bytes(&narrow, count).is_err());
        }
        let mut damaged = narrow;
        let at = random.below(damaged.len());
        damaged[at] ^= 1 << random.below(8);
        damaged.truncate(at + 1 + random.below(damaged.len()));
        let count = random.below(model.len() + 2);
        if let Ok(set) = GenericPatriciaSet::<T>::from_tree_bytes(&damaged, count) {
            assert!(set.len() == count && set.iter().all(|key| set.contains(&key)));
        }
    }
}

fn combine<T: Kind>(one: &Pair<T>, other: &Pair<T>) {
    let (a, b, x, y) = (&one.set, &other.set, &one.model, &other.model);
    assert_eq!(owned((a | b).iter()), listed(x.union(y)));
    assert_eq!(owned((a & b).iter()), listed(x.intersection(y)));
    assert_eq!(owned((a - b).iter()), listed(x.difference(y)));
    assert_eq!(owned(a.union(b).iter()), listed(x.union(y)));
    assert_eq!(owned(a.intersection(b).iter()), listed(x.intersection(y)));
    assert_eq!(owned(a.difference(b).iter()), listed(x.difference(y)));
    assert_eq!(
        (a.is_subset(b), a.is_superset(b)),
        (x.is_subset(y), x.is_superset(y))
    );
    assert_eq!(a.is_disjoint(b), x.is_disjoint(y));
    assert_eq!((a == b, a.cmp(b)), (x == y, x.cmp(y)));
    let part = a.intersection(b);
    assert!(part.is_subset(a) && b.is_superset(&part) && a.difference(b).is_disjoint(b));
}

fn run<T: Kind>(seed: u64) {
    let mut random = Random::new(seed);
    let mut pairs = [Pair::<T>::new(), Pair::<T>::new()];
    for step in 0..300 {
        pairs[step % 2].change(&mut random);
        let pair = &pairs[step % 2];
        assert_eq!(pair.set.len(), pair.model.len());
        match random.below(12) {
            0 => pair.check(),
            1 => pair.look_many(&mut random),
            2 => pair.encode(&mut random),
            3 => combine(&pairs[0], &pairs[1]),
            _ => pair.look(&mut random),
        }
    }
    pairs.iter().for_each(Pair::check);
}

#[test]
fn sets_are_as_those_of_std() {
    for_seeds(25, |seed| {
        run::<Vec<u8>>(seed);
        run::<String>(seed + 1000);
        run::<UnitKey>(seed + 2000);
    });
}
