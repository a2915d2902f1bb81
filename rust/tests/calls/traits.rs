//! Std's traits for maps and sets.

use patricia::{PatriciaMap, PatriciaSet, StringPatriciaMap, StringPatriciaSet};
use std::cmp::Ordering;
use std::collections::{BTreeMap, BTreeSet, HashSet};
use std::fmt::Debug;
use std::hash::{DefaultHasher, Hash, Hasher};

fn hash(item: &impl Hash) -> u64 {
    let mut hasher = DefaultHasher::new();
    item.hash(&mut hasher);
    hasher.finish()
}

/// The same entries, put in another way.
fn reversed(map: &StringPatriciaMap<u32>) -> StringPatriciaMap<u32> {
    let mut other = StringPatriciaMap::from([("abc", 7), ("zz", 8)]);
    let entries: Vec<(String, u32)> = map.clone().into_iter().collect();
    other.extend(entries.into_iter().rev());
    other.retain(|key, _| map.contains_key(key));
    other
}

fn maps() -> Vec<StringPatriciaMap<u32>> {
    let lists: [&[(&str, u32)]; 9] = [
        &[],
        &[("", 0)],
        &[("", 1)],
        &[("a", 0)],
        &[("a", 1)],
        &[("a", 0), ("ab", 0)],
        &[("a", 0), ("b", 0)],
        &[("a", 1), ("b", 0), ("é", 5)],
        &[("ab", 0)],
    ];
    lists.map(|list| list.iter().copied().collect()).into()
}

fn model(map: &StringPatriciaMap<u32>) -> BTreeMap<String, u32> {
    map.clone().into_iter().collect()
}

#[test]
fn maps_are_compared_as_those_of_std() {
    for one in &maps() {
        for other in &maps() {
            let (x, y) = (model(one), model(other));
            assert_eq!((one == other, one != other), (x == y, x != y));
            assert_eq!(one.try_equals(other), Ok(x == y));
            assert_eq!(one.cmp(other), x.cmp(&y));
            assert_eq!(one.partial_cmp(other), x.partial_cmp(&y));
            assert_eq!(hash(one) == hash(other), x == y);
        }
        assert!(*one == reversed(one) && hash(one) == hash(&reversed(one)));
        assert_eq!(one.cmp(&reversed(one)), Ordering::Equal);
    }
    let distinct: HashSet<StringPatriciaMap<u32>> = maps().into_iter().chain(maps()).collect();
    assert_eq!(distinct.len(), 9);
}

#[test]
fn values_without_an_order_make_maps_without_one() {
    let number = |value: f64| StringPatriciaMap::from([("a", value)]);
    assert_eq!(number(1.0).partial_cmp(&number(2.0)), Some(Ordering::Less));
    assert_eq!(number(f64::NAN).partial_cmp(&number(2.0)), None);
    assert!(number(f64::NAN) != number(f64::NAN) && number(0.0) == number(-0.0));
}

#[test]
fn sets_are_compared_as_those_of_std() {
    let lists: [&[&str]; 7] = [
        &[],
        &[""],
        &["a"],
        &["a", "ab"],
        &["a", "b"],
        &["b"],
        &["é"],
    ];
    for one in &lists {
        for other in &lists {
            let x: BTreeSet<&str> = one.iter().copied().collect();
            let y: BTreeSet<&str> = other.iter().copied().collect();
            let one: StringPatriciaSet = one.iter().collect();
            let other: StringPatriciaSet = other.iter().rev().collect();
            assert_eq!((one == other, one.try_equals(&other)), (x == y, Ok(x == y)));
            assert_eq!(
                (one.cmp(&other), one.partial_cmp(&other)),
                (x.cmp(&y), x.partial_cmp(&y))
            );
            assert_eq!(hash(&one) == hash(&other), x == y);
        }
    }
}

fn check_text(ours: &impl Debug, std: &impl Debug) {
    assert_eq!(format!("{ours:?}"), format!("{std:?}"));
    assert_eq!(format!("{ours:#?}"), format!("{std:#?}"));
}

#[test]
fn maps_and_sets_are_written_as_those_of_std() {
    for map in &maps() {
        check_text(map, &model(map));
    }
    let keys = ["b", "", "aé"];
    check_text(&StringPatriciaSet::from(keys), &BTreeSet::from(keys));
    check_text(
        &PatriciaSet::from(keys),
        &BTreeSet::from(keys.map(str::as_bytes)),
    );
    assert_eq!(
        format!("{:?}", PatriciaMap::from([("b", 2), ("a", 1)])),
        "{[97]: 1, [98]: 2}"
    );
}

#[test]
fn clones_are_apart() {
    let mut map: StringPatriciaMap<Vec<u32>> = StringPatriciaMap::from([("a", vec![1])]);
    for n in 0..300 {
        map.insert(n.to_string(), vec![n]);
    }
    (0..300)
        .step_by(2)
        .for_each(|n| drop(map.remove(n.to_string())));
    let (mut copy, other) = (map.clone(), map.try_clone().unwrap());
    assert!(copy == map && other == map);
    copy.insert("b", vec![]);
    copy.get_mut("a").unwrap().push(2);
    assert!(copy.remove("1").is_some());
    assert_eq!((copy.len(), map.len()), (151, 151));
    assert_eq!(
        (map.get("a"), map.get("b"), copy.get("1")),
        (Some(&vec![1]), None, None)
    );
    map.clear();
    assert_eq!((other.len(), map.clone().len()), (151, 0));
    let mut set = StringPatriciaSet::from(["a", "b"]);
    let (copy, other) = (set.clone(), set.try_clone().unwrap());
    set.insert("c");
    assert!(copy != set && copy == other && copy.len() == 2);
}

#[test]
fn an_index_is_the_value_of_a_key() {
    let map = PatriciaMap::from([("a", 1), ("", 2)]);
    assert_eq!((map["a"], map[b""], map[vec![97]]), (1, 2, 1));
}

#[test]
#[should_panic(expected = "no entry found for key")]
fn an_index_that_is_no_key_panics() {
    let _value = PatriciaMap::from([("a", 1)])["b"];
}

#[test]
fn defaults_are_empty() {
    assert!(StringPatriciaMap::<u32>::default().is_empty());
    assert!(PatriciaSet::default().is_empty());
    let mut map = StringPatriciaMap::from([("a", 1)]);
    let taken = std::mem::take(&mut map);
    assert_eq!((taken.len(), map.len()), (1, 0));
}

#[test]
fn loops_borrow_or_move() {
    let mut map = StringPatriciaMap::from([("b", 2), ("a", 1)]);
    let mut keys = String::new();
    for (key, value) in &map {
        keys += &format!("{key}{value}");
    }
    for (key, value) in &mut map {
        *value += key.len() as u32 * 10;
    }
    for (key, value) in map {
        keys += &format!("{key}{value}");
    }
    let set = StringPatriciaSet::from(["y", "x"]);
    for element in &set {
        keys += &element;
    }
    for element in set {
        keys += &element;
    }
    assert_eq!(keys, "a1b2a11b12xyxy");
}
