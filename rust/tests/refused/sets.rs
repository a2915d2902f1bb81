//! Calls of sets.

use crate::starts::{Key, STARTS, Set, elements, probes, set};
use crate::{in_turn, in_turn_or_without};
use patricia::{AllocError, DecodeError, LoadError, WireError};
use std::cell::RefCell;
use std::collections::BTreeSet;
use std::fmt::Debug;
use std::ops::Bound::{Excluded, Unbounded};

type Model = BTreeSet<Vec<u8>>;

/// Calls at each start and key. An error has to leave the set as it was, and a success has to be
/// and to leave what it is and leaves in a model.
fn steady<K: Key, R: Debug + PartialEq>(
    call: impl Fn(&mut Set<K>, &K) -> Result<R, AllocError>,
    expected: impl Fn(&mut Model, &[u8]) -> R,
) {
    steady_as(call, |answer| answer, expected);
}

/// Does as `steady`, with an answer that is read when nothing is refused any more.
fn steady_as<K: Key, R: Debug, A: Debug + PartialEq>(
    call: impl Fn(&mut Set<K>, &K) -> Result<R, AllocError>,
    read: impl Fn(R) -> A,
    expected: impl Fn(&mut Model, &[u8]) -> A,
) {
    let mut requests = 0;
    for start in STARTS {
        let before = elements(&set::<K>(start));
        for key in probes::<K>(start) {
            let made = || set::<K>(start);
            requests += in_turn_or_without(
                made,
                |set| call(set, &key),
                |set, result| {
                    let mut model: Model = before.iter().cloned().collect();
                    if let Ok(answer) = result {
                        let expected = expected(&mut model, key.bytes());
                        assert_eq!(read(answer), expected, "{start:?} {key:?}");
                    }
                    assert!(elements(&set).iter().eq(&model), "{start:?} {key:?}");
                },
            )
            .requests;
        }
    }
    assert!(requests > 0, "it makes no request");
}

fn owned<K: Key>(element: Option<K>) -> Option<Vec<u8>> {
    element.map(|element| element.bytes().to_vec())
}

fn split(model: &mut Model, prefix: &[u8]) -> Vec<Vec<u8>> {
    let part = model
        .iter()
        .filter(|key| key.starts_with(prefix))
        .cloned()
        .collect();
    model.retain(|key| !key.starts_with(prefix));
    part
}

// calls of set::GenericPatriciaSet

fn changes<K: Key>() {
    steady::<K, _>(
        |set, key| set.try_insert(key),
        |model, key| model.insert(key.into()),
    );
    steady::<K, _>(
        |set, key| set.try_remove(key),
        |model, key| model.remove(key),
    );
    steady::<K, _>(
        |set, key| set.try_remove_prefix(key),
        |model, key| split(model, key).len(),
    );
    steady_as::<K, _, Vec<Vec<u8>>>(
        |set, key| set.try_split_by_prefix(key),
        |set| elements(&set),
        split,
    );
    steady::<K, _>(
        |set, _| set.try_pop_first().map(owned),
        |model, _| model.pop_first(),
    );
    steady::<K, _>(
        |set, _| set.try_pop_last().map(owned),
        |model, _| model.pop_last(),
    );
}

fn retains<K: Key>() {
    steady::<K, _>(
        |set, _| {
            let mut n = 0;
            set.try_retain(|_| {
                n += 1;
                n % 3 == 1
            })
        },
        |model, _| {
            let kept = model.iter().step_by(3).cloned().collect();
            *model = kept;
        },
    );
}

#[test]
fn a_refused_change_leaves_the_set() {
    changes::<Vec<u8>>();
    changes::<String>();
    retains::<Vec<u8>>();
    retains::<String>();
}

fn looks<K: Key>() {
    steady::<K, _>(
        |set, key| set.try_count_prefix(key),
        |model, key| split(&mut model.clone(), key).len(),
    );
    steady::<K, _>(
        |set, _| set.try_first().map(owned),
        |model, _| model.first().cloned(),
    );
    steady::<K, _>(
        |set, _| set.try_last().map(owned),
        |model, _| model.last().cloned(),
    );
    steady::<K, _>(
        |set, key| set.try_first_after(key).map(owned),
        |model, key| {
            model
                .range::<[u8], _>((Excluded(key), Unbounded))
                .next()
                .cloned()
        },
    );
    steady::<K, _>(
        |set, key| set.try_last_before(key).map(owned),
        |model, key| {
            model
                .range::<[u8], _>((Unbounded, Excluded(key)))
                .next_back()
                .cloned()
        },
    );
}

fn lists<K: Key>() {
    let keys: Vec<K> = STARTS.into_iter().flat_map(probes::<K>).collect();
    steady::<K, Vec<bool>>(
        |set, _| set.try_contains_many(&keys),
        |model, _| keys.iter().map(|key| model.contains(key.bytes())).collect(),
    );
    steady::<K, Vec<bool>>(
        |set, _| {
            let found = set.try_longest_many(&keys)?;
            Ok(found.into_iter().map(|found| found.is_some()).collect())
        },
        |model, _| {
            let begins = |key: &K| model.iter().any(|front| key.bytes().starts_with(front));
            keys.iter().map(begins).collect()
        },
    );
}

#[test]
fn a_refused_look_up_leaves_the_set() {
    looks::<Vec<u8>>();
    looks::<String>();
    lists::<Vec<u8>>();
    lists::<String>();
}

fn pairs<K: Key>() {
    let other = set::<K>(STARTS[2]);
    let others: Model = elements(&other).into_iter().collect();
    let list = |elements: &mut dyn Iterator<Item = &Vec<u8>>| elements.cloned().collect();
    steady_as::<K, _, Vec<Vec<u8>>>(
        |set, _| set.try_union(&other),
        |set| elements(&set),
        |model, _| list(&mut model.union(&others)),
    );
    steady_as::<K, _, Vec<Vec<u8>>>(
        |set, _| set.try_intersection(&other),
        |set| elements(&set),
        |model, _| list(&mut model.intersection(&others)),
    );
    steady_as::<K, _, Vec<Vec<u8>>>(
        |set, _| set.try_difference(&other),
        |set| elements(&set),
        |model, _| list(&mut model.difference(&others)),
    );
    steady::<K, _>(
        |set, _| set.try_is_subset(&other),
        |model, _| model.is_subset(&others),
    );
    steady::<K, _>(
        |set, _| set.try_is_superset(&other),
        |model, _| model.is_superset(&others),
    );
    steady::<K, _>(
        |set, _| set.try_is_disjoint(&other),
        |model, _| model.is_disjoint(&others),
    );
    steady::<K, _>(|set, _| set.try_equals(&other), |model, _| *model == others);
    steady_as::<K, _, Vec<Vec<u8>>>(
        |set, _| set.try_clone(),
        |set| elements(&set),
        |model, _| list(&mut model.iter()),
    );
}

#[test]
fn a_refused_call_of_two_sets_leaves_both() {
    pairs::<Vec<u8>>();
    pairs::<String>();
}

/// Calls with elements, of which those before the failing one have to be in.
fn stops<K: Key, E: Debug>(
    start: crate::starts::Start,
    list: &[K],
    call: impl Fn(&mut (Set<K>, Set<K>)) -> Result<(), E>,
    is_memory: impl Fn(E) -> bool,
) {
    let before = elements(&set::<K>(start));
    let after_first = |n: usize| -> Vec<Vec<u8>> {
        let added = list[..n].iter().map(|key| key.bytes().to_vec());
        before
            .iter()
            .cloned()
            .chain(added)
            .collect::<Model>()
            .into_iter()
            .collect()
    };
    let mut stops = BTreeSet::new();
    in_turn_or_without(
        || (set::<K>(start), list.iter().collect()),
        call,
        |(set, _), result| match result {
            Ok(()) => assert_eq!(elements(&set), after_first(list.len())),
            Err(error) => {
                assert!(is_memory(error));
                let left = elements(&set);
                stops.insert(
                    (0..list.len())
                        .find(|&n| after_first(n) == left)
                        .expect("the first"),
                );
            }
        },
    );
    assert!(!stops.is_empty(), "{start:?}");
}

fn many<K: Key>() {
    for start in STARTS {
        let keys = probes::<K>(start);
        let sorted: BTreeSet<K> = keys.iter().cloned().collect();
        let sorted: Vec<K> = sorted.into_iter().collect();
        let extend = |sets: &mut (Set<K>, Set<K>)| sets.0.try_extend(&keys);
        stops(start, &keys, extend, |error| error == AllocError);
        let append = |sets: &mut (Set<K>, Set<K>)| {
            let result = sets.0.try_append(&mut sets.1);
            assert!(sets.1.is_empty());
            result
        };
        stops(start, &sorted, append, |error| error == AllocError);
        let last = set::<K>(start).last();
        let behind = sorted
            .iter()
            .filter(|key| Some(*key) > last.as_ref())
            .cloned();
        let more = (1..9).map(|n| K::of(&("\u{fffd}".repeat(n) + "z")));
        let mut behind: Vec<K> = behind.chain(more).collect();
        behind.sort();
        let load = |sets: &mut (Set<K>, Set<K>)| sets.0.try_sorted_load(&behind);
        stops(start, &behind, load, |error| error == LoadError::Memory);
    }
}

#[test]
fn a_refused_call_of_many_keeps_the_elements_before() {
    many::<Vec<u8>>();
    many::<String>();
}

fn makes<K: Key>() {
    let keys = probes::<K>(STARTS[3]);
    let sorted: BTreeSet<K> = keys.iter().cloned().collect();
    let all: Vec<Vec<u8>> = sorted.iter().map(|key| key.bytes().to_vec()).collect();
    let make = |_: &mut ()| Set::<K>::try_from_iter(&keys);
    in_turn_or_without(
        || (),
        make,
        |(), result| match result {
            Ok(set) => assert_eq!(elements(&set), all),
            Err(error) => assert_eq!(error, AllocError),
        },
    );
    let load = |_: &mut ()| Set::<K>::try_from_sorted_iter(&sorted);
    in_turn_or_without(
        || (),
        load,
        |(), result| match result {
            Ok(set) => assert_eq!(elements(&set), all),
            Err(error) => assert_eq!(error, LoadError::Memory),
        },
    );
}

#[test]
fn a_refused_set_is_not_made() {
    makes::<Vec<u8>>();
    makes::<String>();
}

fn visits<K: Key>() {
    let mut requests = 0;
    for start in STARTS {
        let all = elements(&set::<K>(start));
        let seen = RefCell::new(Vec::new());
        let call = |set: &mut Set<K>| {
            use patricia::BorrowedBytes as _;
            set.try_for_each(|key| seen.borrow_mut().push(key.as_bytes().to_vec()))
        };
        requests += in_turn(
            || set::<K>(start),
            call,
            |_, result| {
                let seen = seen.take();
                assert!(all.starts_with(&seen));
                assert!(result == Err(AllocError) || seen.len() == all.len());
            },
        );
    }
    assert!(requests > 0);
}

#[test]
fn a_refused_visit_of_a_set_stops_at_the_element_before() {
    visits::<Vec<u8>>();
    visits::<String>();
}

fn encodings<K: Key>() {
    for start in STARTS {
        let made = || set::<K>(start);
        let (plain, wide) = (
            made().tree_bytes().unwrap(),
            made().wide_tree_bytes().unwrap(),
        );
        let check = |result: Result<Vec<u8>, WireError>, bytes: &[u8]| match result {
            Ok(written) => assert_eq!(written, bytes),
            Err(error) => assert!(matches!(error, WireError::Memory)),
        };
        in_turn(
            made,
            |set| set.try_tree_bytes(),
            |_, result| check(result, &plain),
        );
        in_turn(
            made,
            |set| set.try_wide_tree_bytes(),
            |_, result| check(result, &wide),
        );
        let count = made().len();
        let check = |(), result: Result<Set<K>, DecodeError>| match result {
            Ok(read) => assert!(read == made()),
            Err(error) => assert!(matches!(error, DecodeError::Memory)),
        };
        in_turn(
            || (),
            |()| Set::<K>::try_from_tree_bytes(&plain, count),
            check,
        );
        in_turn(
            || (),
            |()| Set::<K>::try_from_wide_tree_bytes(&wide, count),
            check,
        );
    }
}

#[test]
fn a_refused_encoding_of_a_set_is_an_error() {
    encodings::<Vec<u8>>();
    encodings::<String>();
}
