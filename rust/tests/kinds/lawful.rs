//! Lawful kinds against std's ordered map.

use crate::calls::Random;
use crate::faults::{Kind, LAWFUL, OwnedUnits, Units, choose, kind};
use patricia::GenericPatriciaMap;
use std::collections::BTreeMap;
use std::ops::Bound;

type Map = GenericPatriciaMap<OwnedUnits, u32>;
type Model = BTreeMap<OwnedUnits, u32>;

/// The entries of a model whose keys begin with a prefix.
fn under(model: &Model, prefix: &OwnedUnits) -> Vec<(OwnedUnits, u32)> {
    let begins = |key: &OwnedUnits| key.true_bytes().starts_with(prefix.true_bytes());
    let found = model.iter().filter(|entry| begins(entry.0));
    found.map(|(key, value)| (key.clone(), *value)).collect()
}

/// The entries of a model whose keys are prefixes of a key.
fn along(model: &Model, key: &OwnedUnits) -> Vec<(Vec<u8>, u32)> {
    let begins = |front: &OwnedUnits| key.true_bytes().starts_with(front.true_bytes());
    let found = model.iter().filter(|entry| begins(entry.0));
    found
        .map(|(key, value)| (key.true_bytes().to_vec(), *value))
        .collect()
}

/// How many bytes in whole items some key of a model has in common with a key.
fn shared(model: &Model, key: &OwnedUnits) -> usize {
    let shared = |other: &OwnedUnits| {
        let pairs = other.true_bytes().iter().zip(key.true_bytes());
        let shared = pairs.take_while(|(x, y)| x == y).count();
        shared - shared % kind().width
    };
    model.keys().map(shared).max().unwrap_or(0)
}

fn owned(entry: (OwnedUnits, &u32)) -> (OwnedUnits, u32) {
    (entry.0, *entry.1)
}

/// Changes a map and a model in the same way.
fn change(map: &mut Map, model: &mut Model, random: &mut Random, step: u32) {
    let key = random.key();
    match random.below(12) {
        0..7 => assert_eq!(map.insert(&key, step), model.insert(key, step)),
        7..9 => {
            let key = model.keys().nth(random.below(50)).cloned().unwrap_or(key);
            assert_eq!(map.remove(&key), model.remove(&key));
        }
        9 => {
            let part = map.split_by_prefix(&key);
            let expected = under(model, &key);
            model.retain(|other, _| !other.true_bytes().starts_with(key.true_bytes()));
            assert_eq!(part.into_iter().collect::<Vec<_>>(), expected);
        }
        10 => {
            let entries: Vec<_> = (0..20).map(|n| (random.key(), step + n)).collect();
            model.extend(entries.clone());
            let other: Map = entries.into_iter().collect();
            map.merge_with(other, |old, new| *old = new);
        }
        _ => {
            map.retain(|_, value| *value % 7 > 0);
            model.retain(|_, value| *value % 7 > 0);
        }
    }
}

/// Compares what look-ups and walks say with what a model says.
fn compare(map: &Map, model: &Model, random: &mut Random) {
    let key = random.key();
    let units: &Units = key.as_ref();
    assert_eq!(map.len(), model.len());
    assert_eq!(map.get(&key), model.get(&key));
    let entries: Vec<_> = map.iter_prefix(units).map(owned).collect();
    assert_eq!(entries, under(model, &key));
    let bytes = |part: &Units| part.to_owned().true_bytes().to_vec();
    let prefixes = map
        .common_prefixes(units)
        .map(|(part, value)| (bytes(part), *value));
    assert_eq!(prefixes.collect::<Vec<_>>(), along(model, &key));
    let longest = map.get_longest_common_prefix(units);
    let longest = longest.map(|(part, value)| (bytes(part), *value));
    assert_eq!(longest, along(model, &key).pop());
    assert_eq!(map.longest_common_prefix_len(units), shared(model, &key));
    let after = model
        .range::<OwnedUnits, _>((Bound::Excluded(&key), Bound::Unbounded))
        .next();
    assert_eq!(
        map.first_after(&key).map(owned),
        after.map(|(k, v)| (k.clone(), *v))
    );
    let before = model.range::<OwnedUnits, _>(..&key).next_back();
    assert_eq!(
        map.last_before(&key).map(owned),
        before.map(|(k, v)| (k.clone(), *v))
    );
}

fn agree(kind: Kind) {
    choose(kind);
    let mut random = Random(1);
    let (mut map, mut model) = (Map::new(), Model::new());
    for step in 0..6000 {
        change(&mut map, &mut model, &mut random, step);
        compare(&map, &model, &mut random);
        if step % 50 == 0 {
            assert!(map.iter().map(owned).eq(model.clone()));
            let values = map.values().copied().collect();
            let bytes = map.tree_bytes().expect("the tree is not deep");
            let read = Map::from_tree_bytes(&bytes, values).expect("the bytes are a tree");
            assert!(read == map);
        }
    }
}

#[test]
fn keys_of_bytes_are_as_in_an_ordered_map() {
    agree(LAWFUL);
}

#[test]
fn keys_of_units_of_two_bytes_are_as_in_an_ordered_map() {
    agree(Kind { width: 2, ..LAWFUL });
}
