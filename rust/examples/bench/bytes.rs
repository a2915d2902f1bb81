//! The lines of the benchmark page, over byte strings.

use crate::keys::{Lists, end};
use crate::sheet::{Map, Sheet};
use patricia::{PatriciaMap, PatriciaSet};
use std::collections::{BTreeMap, BTreeSet};
use std::hint::black_box;

/// How many entries `under` and `range` list at the most.
const MOST: usize = 100_000;

pub fn ours(sheet: &mut Sheet, lists: &Lists) {
    let mut map = ours_filled(sheet, lists);
    ours_walked(sheet, lists, &mut map);
    ours_whole(sheet, lists, &map);
    ours_emptied(sheet, lists, map);
    ours_loaded(sheet, lists);
}

pub fn std(sheet: &mut Sheet, lists: &Lists) {
    let mut map = std_filled(sheet, lists);
    std_walked(sheet, lists, &mut map);
    std_whole(sheet, lists, &map);
    std_emptied(sheet, lists, map);
    std_loaded(sheet, lists);
}

fn ours_filled(sheet: &mut Sheet, lists: &Lists) -> PatriciaMap<u64> {
    let n = lists.present.len();
    let mut map = PatriciaMap::new();
    sheet.time(Map::Ours, "insert", n, || {
        for (key, value) in lists.present.iter().zip(0..) {
            map.insert(key, value);
        }
    });
    let found = |map: &PatriciaMap<u64>, keys: &[&[u8]]| {
        keys.iter().filter(|key| map.get(key).is_some()).count()
    };
    assert_eq!(
        sheet.time(Map::Ours, "get", n, || found(&map, &lists.asked)),
        n
    );
    let absent = lists.absent.len();
    sheet.time(Map::Ours, "get_absent", absent, || {
        black_box(found(&map, &lists.absent))
    });
    sheet.time(Map::Ours, "get_many", n, || {
        let mut answers = [None; 256];
        for keys in lists.asked.chunks(256) {
            black_box(map.get_many_into(keys, &mut answers));
        }
    });
    sheet.time(Map::Ours, "longest", n, || {
        lists
            .absent
            .iter()
            .filter(|key| map.get_longest_common_prefix(key).is_some())
            .count()
    });
    map
}

fn std_filled(sheet: &mut Sheet, lists: &Lists) -> BTreeMap<Vec<u8>, u64> {
    let n = lists.present.len();
    let mut map = BTreeMap::new();
    sheet.time(Map::Std, "insert", n, || {
        for (key, value) in lists.present.iter().zip(0..) {
            map.insert(key.to_vec(), value);
        }
    });
    let found = |map: &BTreeMap<Vec<u8>, u64>, keys: &[&[u8]]| {
        keys.iter().filter(|key| map.get(**key).is_some()).count()
    };
    sheet.time(Map::Std, "get", n, || black_box(found(&map, &lists.asked)));
    let absent = lists.absent.len();
    sheet.time(Map::Std, "get_absent", absent, || {
        black_box(found(&map, &lists.absent))
    });
    sheet.time(Map::Std, "get_many", n, || {
        black_box(found(&map, &lists.asked))
    });
    sheet.time(Map::Std, "longest", n, || {
        let begins = |key: &[u8]| (0..=key.len()).rev().any(|n| map.contains_key(&key[..n]));
        lists.absent.iter().filter(|key| begins(key)).count()
    });
    map
}

fn ours_walked(sheet: &mut Sheet, lists: &Lists, map: &mut PatriciaMap<u64>) {
    let n = map.len();
    sheet.time(Map::Ours, "iter", n, || {
        black_box(
            map.iter()
                .map(|(key, _)| black_box(key).len())
                .sum::<usize>(),
        )
    });
    sheet.time(Map::Ours, "lend", n, || {
        let (mut cursor, mut bytes) = (map.cursor(), 0);
        while cursor.advance() {
            bytes += cursor.key_bytes().map_or(0, <[u8]>::len);
        }
        black_box(bytes)
    });
    sheet.time(Map::Ours, "values", n, || {
        black_box(map.values().sum::<u64>())
    });
    sheet.time(Map::Ours, "iter_mut", n, || {
        map.iter_mut()
            .map(|(key, value)| black_box((key, value)).0.len())
            .sum::<usize>()
    });
    sheet.time(Map::Ours, "values_mut", n, || {
        map.values_mut()
            .for_each(|value| *value = value.wrapping_add(1))
    });
    let starts = &lists.absent[..lists.absent.len().min(MOST / 10)];
    sheet.time(Map::Ours, "range", starts.len(), || {
        starts
            .iter()
            .map(|key| map.range(*key..).take(10).count())
            .sum::<usize>()
    });
}

fn std_walked(sheet: &mut Sheet, lists: &Lists, map: &mut BTreeMap<Vec<u8>, u64>) {
    let n = map.len();
    sheet.time(Map::Std, "iter", n, || {
        black_box(
            map.keys()
                .map(|key| black_box(key.clone()).len())
                .sum::<usize>(),
        )
    });
    sheet.time(Map::Std, "lend", n, || {
        black_box(map.keys().map(Vec::len).sum::<usize>())
    });
    sheet.time(Map::Std, "values", n, || {
        black_box(map.values().sum::<u64>())
    });
    sheet.time(Map::Std, "iter_mut", n, || {
        map.iter_mut()
            .map(|(key, value)| black_box((key.clone(), value)).0.len())
            .sum::<usize>()
    });
    sheet.time(Map::Std, "values_mut", n, || {
        map.values_mut()
            .for_each(|value| *value = value.wrapping_add(1))
    });
    let starts = &lists.absent[..lists.absent.len().min(MOST / 10)];
    sheet.time(Map::Std, "range", starts.len(), || {
        let entries = |key: &[u8]| {
            map.range(key.to_vec()..)
                .take(10)
                .map(|entry| black_box(entry.0.clone()).len())
                .sum::<usize>()
        };
        starts.iter().map(|key| entries(key)).sum::<usize>()
    });
}

fn ours_whole(sheet: &mut Sheet, lists: &Lists, map: &PatriciaMap<u64>) {
    let n = map.len();
    let bytes = sheet.time(Map::Ours, "tree_bytes", n, || {
        map.tree_bytes().expect("few levels")
    });
    let values = map.values().copied().collect();
    let read = sheet.time(Map::Ours, "from_tree_bytes", n, || {
        PatriciaMap::from_tree_bytes(&bytes, values).expect("what was written")
    });
    let mut copy = sheet.time(Map::Ours, "clone", n, || map.clone());
    assert!(sheet.time(Map::Ours, "equals", n, || copy == read));
    let part = sheet.time(Map::Ours, "split_by_prefix", n, || {
        copy.split_by_prefix(lists.prefix)
    });
    sheet.time(Map::Ours, "merge", n, || copy.merge_with(part, |_, _| ()));
    sheet.time(Map::Ours, "retain", n, || {
        copy.retain(|_, value| *value % 2 == 0)
    });
    let left = copy.len();
    sheet.time(Map::Ours, "pops", left, || {
        while copy.pop_first().and(copy.pop_last()).is_some() {}
    });
    let set = PatriciaSet::from_iter(lists.present.iter());
    let other = PatriciaSet::from_iter(lists.absent.iter().take(MOST));
    sheet.time(Map::Ours, "union", n, || set.union(&other));
    sheet.time(Map::Ours, "intersection", n, || set.intersection(&other));
    sheet.time(Map::Ours, "difference", n, || set.difference(&other));
}

fn std_whole(sheet: &mut Sheet, lists: &Lists, map: &BTreeMap<Vec<u8>, u64>) {
    let n = map.len();
    sheet.time(Map::Std, "tree_bytes", n, || {
        black_box(map.keys().flatten().copied().collect::<Vec<u8>>())
    });
    let read: BTreeMap<_, _> = sheet.time(Map::Std, "from_tree_bytes", n, || {
        map.iter()
            .map(|(key, value)| (key.clone(), *value))
            .collect()
    });
    let mut copy = sheet.time(Map::Std, "clone", n, || map.clone());
    assert!(sheet.time(Map::Std, "equals", n, || copy == read));
    let mut part = sheet.time(Map::Std, "split_by_prefix", n, || {
        let mut part = copy.split_off(lists.prefix);
        if let Some(end) = end(lists.prefix) {
            copy.append(&mut part.split_off(&end));
        }
        part
    });
    sheet.time(Map::Std, "merge", n, || copy.append(&mut part));
    sheet.time(Map::Std, "retain", n, || {
        copy.retain(|_, value| *value % 2 == 0)
    });
    let left = copy.len();
    sheet.time(Map::Std, "pops", left, || {
        while copy.pop_first().and(copy.pop_last()).is_some() {}
    });
    let set: BTreeSet<Vec<u8>> = lists.present.iter().map(|key| key.to_vec()).collect();
    let other: BTreeSet<Vec<u8>> = lists
        .absent
        .iter()
        .take(MOST)
        .map(|key| key.to_vec())
        .collect();
    sheet.time(Map::Std, "union", n, || &set | &other);
    sheet.time(Map::Std, "intersection", n, || &set & &other);
    sheet.time(Map::Std, "difference", n, || &set - &other);
}

fn ours_emptied(sheet: &mut Sheet, lists: &Lists, mut map: PatriciaMap<u64>) {
    let n = map.len();
    let removed = sheet.time(Map::Ours, "remove", n, || {
        lists
            .asked
            .iter()
            .filter(|key| map.remove(key).is_some())
            .count()
    });
    assert_eq!(removed, n);
}

fn std_emptied(sheet: &mut Sheet, lists: &Lists, mut map: BTreeMap<Vec<u8>, u64>) {
    let n = map.len();
    let removed = sheet.time(Map::Std, "remove", n, || {
        lists
            .asked
            .iter()
            .filter(|key| map.remove(**key).is_some())
            .count()
    });
    assert_eq!(removed, n);
}

fn ours_loaded(sheet: &mut Sheet, lists: &Lists) {
    let n = lists.sorted.len();
    let mut map = PatriciaMap::new();
    sheet.time(Map::Ours, "insert_sorted", n, || {
        lists.sorted.iter().for_each(|key| {
            map.insert(key, 1u64);
        })
    });
    let pairs = || lists.sorted.iter().map(|key| (key, 1u64));
    let made = sheet.time(Map::Ours, "from_sorted_iter", n, || {
        PatriciaMap::from_sorted_iter(pairs())
    });
    let collected: PatriciaMap<u64> = sheet.time(Map::Ours, "collect", n, || pairs().collect());
    assert!(made == Ok(collected));
}

fn std_loaded(sheet: &mut Sheet, lists: &Lists) {
    let n = lists.sorted.len();
    let mut map = BTreeMap::new();
    sheet.time(Map::Std, "insert_sorted", n, || {
        lists.sorted.iter().for_each(|key| {
            map.insert(key.to_vec(), 1u64);
        })
    });
    let pairs = || lists.sorted.iter().map(|key| (key.to_vec(), 1u64));
    let made: BTreeMap<_, _> = sheet.time(Map::Std, "from_sorted_iter", n, || pairs().collect());
    let collected: BTreeMap<_, _> = sheet.time(Map::Std, "collect", n, || pairs().collect());
    assert!(made == collected);
}
