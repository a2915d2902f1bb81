//! Calls of maps at one key or at the whole map, which leave a map as it was if memory runs out.

use crate::in_turn;
use crate::starts::{Entries, Key, Map, Model, STARTS, entries, map, model, probes};
use patricia::{AllocError, DecodeError, PatriciaMap, Refused, StringPatriciaMap, WireError};
use std::fmt::Debug;
use std::rc::Rc;

/// Calls at each start and key. An error has to leave the map as it was, and a success has to be
/// and to leave what it is and leaves in a model. Returns the number of requests.
fn steady<K: Key, R: Debug + PartialEq, E: Debug>(
    call: impl Fn(&mut Map<K>, &K) -> Result<R, E>,
    expected: impl Fn(&mut Model, &[u8]) -> R,
    is_memory: impl Fn(&E) -> bool,
) -> usize {
    steady_as(call, |answer| answer, expected, is_memory)
}

/// Does as `steady`, with an answer that is read when nothing is refused any more.
fn steady_as<K: Key, R: Debug, A: Debug + PartialEq, E: Debug>(
    call: impl Fn(&mut Map<K>, &K) -> Result<R, E>,
    read: impl Fn(R) -> A,
    expected: impl Fn(&mut Model, &[u8]) -> A,
    is_memory: impl Fn(&E) -> bool,
) -> usize {
    let mut requests = 0;
    for start in STARTS {
        let before: Entries = model::<K>(start).into_iter().collect();
        for key in probes::<K>(start) {
            let made = || map::<K>(start);
            requests += in_turn(
                made,
                |map| call(map, &key),
                |map, result| match result {
                    Err(error) => {
                        assert!(is_memory(&error));
                        assert_eq!(entries(&map), before, "{start:?} {key:?}");
                    }
                    Ok(answer) => {
                        let mut model: Model = before.iter().cloned().collect();
                        let expected = expected(&mut model, key.bytes());
                        assert_eq!(read(answer), expected, "{start:?} {key:?}");
                        assert_eq!(entries(&map), model.into_iter().collect::<Entries>());
                    }
                },
            );
        }
    }
    requests
}

fn out(error: &AllocError) -> bool {
    *error == AllocError
}

fn owned<K: Key>(entry: Option<(K, &u32)>) -> Option<(Vec<u8>, u32)> {
    entry.map(|(key, value)| (key.bytes().to_vec(), *value))
}

fn popped<K: Key>(entry: Option<(K, u32)>) -> Option<(Vec<u8>, u32)> {
    entry.map(|(key, value)| (key.bytes().to_vec(), value))
}

fn copied(entry: Option<(&Vec<u8>, &u32)>) -> Option<(Vec<u8>, u32)> {
    entry.map(|(key, value)| (key.clone(), *value))
}

/// Removes the entries under a prefix.
fn split(model: &mut Model, prefix: &[u8]) -> Entries {
    let part = model
        .clone()
        .into_iter()
        .filter(|entry| entry.0.starts_with(prefix));
    let part = part.collect();
    model.retain(|key, _| !key.starts_with(prefix));
    part
}

// calls of map::GenericPatriciaMap

fn inserts<K: Key>() {
    for start in STARTS {
        for key in probes::<K>(start) {
            let token = Rc::new(());
            let made = || {
                let old = map::<K>(start)
                    .into_iter()
                    .map(|(key, _)| (key, Rc::new(())));
                old.collect::<patricia::GenericPatriciaMap<K, Rc<()>>>()
            };
            let before: Vec<K> = made().keys().collect();
            let insert = |map: &mut patricia::GenericPatriciaMap<K, Rc<()>>| {
                map.try_insert(&key, Rc::clone(&token))
            };
            in_turn(made, insert, |map, result| match result {
                Err(Refused { value }) => {
                    assert!(Rc::ptr_eq(&value, &token));
                    assert_eq!(Rc::strong_count(&token), 2);
                    assert!(map.keys().eq(before.iter().cloned()));
                    assert!(!before.contains(&key) && !key.bytes().is_empty());
                }
                Ok(old) => {
                    assert_eq!(old.is_some(), before.contains(&key));
                    assert!(Rc::ptr_eq(map.get(&key).unwrap(), &token));
                }
            });
            assert_eq!(Rc::strong_count(&token), 1);
        }
    }
}

#[test]
fn a_refused_insert_hands_the_value_back() {
    inserts::<Vec<u8>>();
    inserts::<String>();
}

fn changes<K: Key>() {
    let requests = [
        steady::<K, _, _>(
            |map, key| map.try_remove(key),
            |model, key| model.remove(key),
            out,
        ),
        steady::<K, _, _>(
            |map, key| map.try_insert_with(key, || 9),
            |model, key| {
                model
                    .insert(key.into(), model.get(key).copied().unwrap_or(9))
                    .is_none()
            },
            out,
        ),
        steady::<K, _, _>(
            |map, key| map.try_get_or_insert_with(key, || 9).map(|value| *value),
            |model, key| *model.entry(key.into()).or_insert(9),
            out,
        ),
        steady::<K, _, _>(
            |map, key| map.try_remove_prefix(key),
            |model, key| split(model, key).len(),
            out,
        ),
    ];
    assert!(
        requests.iter().all(|requests| *requests > 0),
        "{requests:?}"
    );
}

fn changes_under_prefixes<K: Key>() {
    let requests = [
        steady::<K, _, _>(
            |map, key| map.try_count_prefix(key),
            |model, key| split(&mut model.clone(), key).len(),
            out,
        ),
        steady_as::<K, _, _, _>(
            |map, key| map.try_split_by_prefix(key),
            |part| entries(&part),
            split,
            out,
        ),
        steady_as::<K, _, _, _>(
            |map, _| map.try_clone(),
            |copy| entries(&copy),
            |model, _| model.clone().into_iter().collect(),
            out,
        ),
    ];
    assert!(
        requests.iter().all(|requests| *requests > 0),
        "{requests:?}"
    );
}

#[test]
fn a_refused_change_leaves_the_map() {
    changes::<Vec<u8>>();
    changes::<String>();
    changes_under_prefixes::<Vec<u8>>();
    changes_under_prefixes::<String>();
}

fn ends<K: Key>() {
    use std::ops::Bound::{Excluded, Unbounded};
    let requests = [
        steady::<K, _, _>(
            |map, _| map.try_first_key_value().map(owned),
            |model, _| copied(model.first_key_value()),
            out,
        ),
        steady::<K, _, _>(
            |map, _| map.try_last_key_value().map(owned),
            |model, _| copied(model.last_key_value()),
            out,
        ),
        steady::<K, _, _>(
            |map, key| map.try_first_after(key).map(owned),
            |model, key| copied(model.range::<[u8], _>((Excluded(key), Unbounded)).next()),
            out,
        ),
        steady::<K, _, _>(
            |map, key| map.try_last_before(key).map(owned),
            |model, key| {
                copied(
                    model
                        .range::<[u8], _>((Unbounded, Excluded(key)))
                        .next_back(),
                )
            },
            out,
        ),
    ];
    assert!(
        requests.iter().all(|requests| *requests > 0),
        "{requests:?}"
    );
}

fn pops<K: Key>() {
    let requests = [
        steady::<K, _, _>(
            |map, _| map.try_pop_first().map(popped),
            |model, _| model.pop_first(),
            out,
        ),
        steady::<K, _, _>(
            |map, _| map.try_pop_last().map(popped),
            |model, _| model.pop_last(),
            out,
        ),
    ];
    assert!(
        requests.iter().all(|requests| *requests > 0),
        "{requests:?}"
    );
}

#[test]
fn a_refused_end_leaves_the_map() {
    ends::<Vec<u8>>();
    ends::<String>();
    pops::<Vec<u8>>();
    pops::<String>();
}

/// Keys of which some are there, more than are looked up at once.
fn keys<K: Key>() -> Vec<K> {
    STARTS.into_iter().flat_map(probes::<K>).collect()
}

fn lists<K: Key>() {
    let keys = keys::<K>();
    let all = |model: &Model| {
        keys.iter()
            .map(|key| model.get(key.bytes()).copied())
            .collect()
    };
    let requests = [
        steady::<K, Vec<Option<u32>>, _>(
            |map, _| {
                map.try_get_many(&keys)
                    .map(|found| found.into_iter().map(|v| v.copied()).collect())
            },
            |model, _| all(model),
            out,
        ),
        steady::<K, Vec<bool>, _>(
            |map, _| map.try_contains_many(&keys),
            |model, _| {
                keys.iter()
                    .map(|key| model.contains_key(key.bytes()))
                    .collect()
            },
            out,
        ),
    ];
    assert!(
        requests.iter().all(|requests| *requests > 0),
        "{requests:?}"
    );
}

fn longest_lists<K: Key>() {
    let keys = keys::<K>();
    let longest = |model: &Model, key: &K| {
        let found = model
            .iter()
            .rev()
            .find(|entry| key.bytes().starts_with(entry.0));
        found.map(|entry| *entry.1)
    };
    let requests = [steady::<K, Vec<Option<u32>>, _>(
        |map, _| {
            let found = map.try_longest_many(&keys);
            found.map(|found| found.into_iter().map(|v| v.map(|v| *v.1)).collect())
        },
        |model, _| keys.iter().map(|key| longest(model, key)).collect(),
        out,
    )];
    assert!(
        requests.iter().all(|requests| *requests > 0),
        "{requests:?}"
    );
}

#[test]
fn a_refused_list_leaves_the_map() {
    lists::<Vec<u8>>();
    lists::<String>();
    longest_lists::<Vec<u8>>();
    longest_lists::<String>();
}

fn equals<K: Key>() {
    let mut requests = 0;
    for start in STARTS {
        let (copy, other) = (map::<K>(start), map::<K>(STARTS[3]));
        let made = || map::<K>(start);
        requests += in_turn(
            made,
            |map| map.try_equals(&copy),
            |map, result| match result {
                Err(error) => assert_eq!((error, map), (AllocError, made())),
                Ok(is_equal) => assert!(is_equal),
            },
        );
        in_turn(
            made,
            |map| map.try_equals(&other),
            |map, result| {
                let is_equal = entries(&map) == entries(&other);
                assert!(result.is_err() || result == Ok(is_equal));
            },
        );
    }
    assert!(requests > 0);
}

#[test]
fn a_refused_comparison_is_an_error() {
    equals::<Vec<u8>>();
    equals::<String>();
}

/// What memory that ran out is among the errors of an encoding.
fn wire(error: &WireError) -> bool {
    matches!(error, WireError::Memory)
}

fn encodings<K: Key>() {
    let plain = |model: &Model| map_of::<K>(model).tree_bytes().unwrap();
    let wide = |model: &Model| map_of::<K>(model).wide_tree_bytes().unwrap();
    let requests = [
        steady::<K, _, _>(|map, _| map.try_tree_bytes(), |model, _| plain(model), wire),
        steady::<K, _, _>(
            |map, _| map.try_wide_tree_bytes(),
            |model, _| wide(model),
            wire,
        ),
    ];
    assert!(
        requests.iter().all(|requests| *requests > 0),
        "{requests:?}"
    );
}

fn map_of<K: Key>(model: &Model) -> Map<K> {
    let key = |bytes: &[u8]| K::of(std::str::from_utf8(bytes).unwrap());
    model
        .iter()
        .map(|(bytes, value)| (key(bytes), *value))
        .collect()
}

#[test]
fn a_refused_encoding_is_an_error() {
    encodings::<Vec<u8>>();
    encodings::<String>();
}

fn decodings<K: Key>() {
    for start in STARTS {
        let map = map::<K>(start);
        let (bytes, wide) = (map.tree_bytes().unwrap(), map.wide_tree_bytes().unwrap());
        let token = Rc::new(());
        let values = || vec![Rc::clone(&token); map.len()];
        type Read<K> = patricia::GenericPatriciaMap<K, Rc<()>>;
        let check = |_, result: Result<Read<K>, DecodeError>| match result {
            Err(error) => {
                assert!(matches!(error, DecodeError::Memory));
                assert_eq!(Rc::strong_count(&token), 1, "the values are dropped");
            }
            Ok(read) => assert!(read.keys().eq(map.keys())),
        };
        let count = in_turn(
            || (),
            |()| Read::<K>::try_from_tree_bytes(&bytes, values()),
            check,
        );
        assert!(count > 0 || map.len() < 2);
        in_turn(
            || (),
            |()| Read::<K>::try_from_wide_tree_bytes(&wide, values()),
            check,
        );
    }
}

#[test]
fn a_refused_decoding_is_an_error() {
    decodings::<Vec<u8>>();
    decodings::<String>();
}

#[test]
fn faults_of_bytes_are_no_refusals() {
    refused_fault(PatriciaMap::<u32>::try_from_tree_bytes(&[1, 2], vec![]).map(drop));
    refused_fault(StringPatriciaMap::<u32>::try_from_wide_tree_bytes(&[1], vec![]).map(drop));
}

fn refused_fault(result: Result<(), DecodeError>) {
    assert!(result.is_err_and(|error| !matches!(error, DecodeError::Memory)));
}
