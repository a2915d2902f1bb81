//! Calls that put many entries in or choose among them, which leave what was done before memory ran
//! out.

use crate::starts::{Entries, Key, Map, Model, STARTS, Start, entries, map, model, probes};
use crate::{in_turn, in_turn_or_without};
use patricia::{AllocError, LoadError};
use std::cell::RefCell;
use std::collections::BTreeSet;
use std::fmt::Debug;

/// Entries with all probe keys, each with a value that no other has.
fn list<K: Key>(start: Start) -> Vec<(K, u32)> {
    let keys: BTreeSet<K> = probes::<K>(start).into_iter().collect();
    let (mut list, mut values): (Vec<_>, _) = (Vec::new(), 1000..);
    for key in keys {
        list.push((key, values.next().unwrap()));
    }
    let middle = list.len() / 2;
    list.rotate_left(middle);
    list
}

/// What a model is after the first `n` entries of a list.
fn after_first<K: Key>(model: &Model, list: &[(K, u32)], n: usize) -> Entries {
    let mut model = model.clone();
    model.extend(
        list[..n]
            .iter()
            .map(|(key, value)| (key.bytes().to_vec(), *value)),
    );
    model.into_iter().collect()
}

/// Calls with a list of entries, of which those before the failing one have to be in. Returns after
/// how many of them it failed.
fn stops<K: Key, E: Debug>(
    start: Start,
    list: &[(K, u32)],
    call: impl Fn(&mut (Map<K>, Map<K>)) -> Result<(), E>,
    is_memory: impl Fn(E) -> bool,
) -> BTreeSet<usize> {
    let before = model::<K>(start);
    let mut stops = BTreeSet::new();
    in_turn_or_without(
        || (map::<K>(start), list.iter().cloned().collect()),
        call,
        |(map, _), result| match result {
            Ok(()) => assert_eq!(entries(&map), after_first(&before, list, list.len())),
            Err(error) => {
                assert!(is_memory(error));
                let left = entries(&map);
                let done = (0..list.len()).find(|&n| after_first(&before, list, n) == left);
                let done = done.expect("the first entries are in, and no others");
                stops.insert(done);
            }
        },
    );
    stops
}

/// Asserts that an entry for which memory ran out is new and not at the empty key.
fn are_new<K: Key>(start: Start, list: &[(K, u32)], stops: &BTreeSet<usize>) {
    let before = model::<K>(start);
    for &stop in stops {
        let key = list[stop].0.bytes();
        assert!(!key.is_empty() && !before.contains_key(key));
    }
}

// calls of map::GenericPatriciaMap

fn extends<K: Key>() {
    for start in STARTS {
        let list = list::<K>(start);
        let call = |maps: &mut (Map<K>, Map<K>)| maps.0.try_extend(list.clone());
        let stops = stops(start, &list, call, |error| error == AllocError);
        are_new(start, &list, &stops);
        assert!(!stops.is_empty(), "{start:?}");
    }
}

#[test]
fn a_refused_extend_keeps_the_entries_before() {
    extends::<Vec<u8>>();
    extends::<String>();
}

/// The call of the proved code, in place of which the public one inserts entry by entry.
#[test]
fn a_refused_extend_of_the_proved_map_keeps_the_entries_before() {
    use patricia::workbench::{Global, StringPatriciaMap};
    let list = list::<String>(STARTS[3]);
    let has = |map: &StringPatriciaMap<u32>, n: usize| {
        let has_entry = |(key, value): &(String, u32)| map.get(key.as_str()) == Some(value);
        map.len() == n && list[..n].iter().all(has_entry)
    };
    let call = |map: &mut StringPatriciaMap<u32>| {
        map.extend(list.iter().map(|(key, value)| (key.as_str(), *value)))
    };
    let mut stops = BTreeSet::new();
    in_turn(
        || StringPatriciaMap::new(Global),
        call,
        |map, result| {
            assert!(has(&map, map.len()));
            assert!(result.is_err() || map.len() == list.len());
            stops.insert(map.len());
        },
    );
    assert!(stops.len() > 2, "{stops:?}");
}

fn loads<K: Key>() {
    for start in STARTS {
        let last = map::<K>(start).last_key_value().map(|entry| entry.0);
        let mut list = list::<K>(start);
        list.retain(|entry| Some(&entry.0) > last.as_ref());
        list.extend((0..9).map(|n| (K::of(&("\u{fffd}".repeat(n + 1) + "z")), n as u32)));
        list.sort();
        let call = |maps: &mut (Map<K>, Map<K>)| maps.0.try_sorted_load(list.clone());
        let stops = stops(start, &list, call, |error| error == LoadError::Memory);
        assert!(!stops.is_empty(), "{start:?}");
        let from = |_: &mut ()| Map::<K>::try_from_sorted_iter(list.clone());
        in_turn_or_without(
            || (),
            from,
            |(), result| match result {
                Ok(map) => assert_eq!(entries(&map), after_first(&Model::new(), &list, list.len())),
                Err(error) => assert_eq!(error, LoadError::Memory),
            },
        );
    }
}

#[test]
fn a_refused_load_keeps_the_entries_before() {
    loads::<Vec<u8>>();
    loads::<String>();
}

#[test]
fn a_load_says_not_in_order_before_it_says_memory() {
    let entries = [(Vec::of("b"), 1), (Vec::of("a"), 2)];
    let call = |map: &mut Map<Vec<u8>>| match map.try_sorted_load(entries.clone()) {
        Err(LoadError::NotInOrder) => Ok(map.len()),
        Err(LoadError::Memory) => Err(AllocError),
        Ok(()) => panic!("the keys are not in order"),
    };
    in_turn_or_without(Map::new, call, |map, result| match result {
        Ok(len) => assert_eq!(len, 1),
        Err(AllocError) => assert!(map.is_empty()),
    });
}

fn makes<K: Key>() {
    let list = list::<K>(STARTS[3]);
    let doubled: Vec<_> = [list.clone(), list.clone()].concat();
    let call = |_: &mut ()| Map::<K>::try_from_iter(doubled.clone());
    let turns = in_turn_or_without(
        || (),
        call,
        |(), result| match result {
            Ok(map) => assert_eq!(entries(&map), after_first(&Model::new(), &list, list.len())),
            Err(error) => assert_eq!(error, AllocError),
        },
    );
    assert!(turns.requests > 4);
}

#[test]
fn a_refused_map_is_not_made() {
    makes::<Vec<u8>>();
    makes::<String>();
}

fn merges<K: Key>() {
    for start in STARTS {
        let mut list = list::<K>(start);
        list.sort();
        let merge = |(map, other): &mut (Map<K>, Map<K>)| {
            map.try_merge_with(std::mem::take(other), |old, new| *old = new)
        };
        let append = |(map, other): &mut (Map<K>, Map<K>)| {
            let result = map.try_append(other);
            assert!(other.is_empty());
            result
        };
        for stops in [
            stops(start, &list, merge, |error| error == AllocError),
            stops(start, &list, append, |error| error == AllocError),
        ] {
            assert!(!stops.is_empty(), "{start:?}");
        }
    }
}

#[test]
fn a_refused_merge_keeps_the_entries_before() {
    merges::<Vec<u8>>();
    merges::<String>();
}

/// What a model is after a closure was asked at its first `n` entries, and left one there.
fn retained(before: &Model, n: usize) -> Entries {
    let mut left = Entries::new();
    for (at, (key, value)) in before.iter().enumerate() {
        match at {
            at if at > n => left.push((key.clone(), *value)),
            // the removal of this entry was refused: it stays, with what the closure left
            at if at == n => left.push((key.clone(), value + 1)),
            _ if value % 3 == 0 => left.push((key.clone(), value + 1)),
            _ => {}
        }
    }
    left
}

fn retains<K: Key>() {
    let mut stops = BTreeSet::new();
    for start in STARTS {
        let before = model::<K>(start);
        let call = |map: &mut Map<K>| {
            map.try_retain(|_, value| {
                *value += 1;
                *value % 3 == 1
            })
        };
        in_turn_or_without(
            || map::<K>(start),
            call,
            |map, result| {
                let left = entries(&map);
                match result {
                    Ok(()) => assert_eq!(left, retained(&before, before.len())),
                    Err(AllocError) if left == before.clone().into_iter().collect::<Entries>() => {}
                    Err(AllocError) => {
                        let done = (0..before.len()).find(|&n| retained(&before, n) == left);
                        stops.insert(done.expect("the first entries are done, and no others"));
                    }
                }
            },
        );
    }
    assert!(stops.len() > 1, "{stops:?}");
}

#[test]
fn a_refused_retain_keeps_what_is_done() {
    retains::<Vec<u8>>();
    retains::<String>();
}

#[test]
fn a_retain_whose_closure_panics_keeps_what_is_not_refused() {
    use std::panic::{AssertUnwindSafe, catch_unwind};
    for stop in 0..9 {
        let mut map = map::<Vec<u8>>(STARTS[3]);
        let before = model::<Vec<u8>>(STARTS[3]);
        let mut asked = 0;
        let retain = AssertUnwindSafe(|| {
            map.retain(|_, value| {
                asked += 1;
                assert!(asked <= stop, "the closure panics");
                *value += 1;
                *value % 3 == 1
            })
        });
        assert!(catch_unwind(retain).is_err());
        let expected = retained(&before, stop);
        let unasked = |(at, (key, value)): (usize, (Vec<u8>, u32))| {
            let is_next = before.keys().nth(stop) == Some(&key);
            (key, value - u32::from(is_next && at < usize::MAX))
        };
        let expected: Entries = expected.into_iter().enumerate().map(unasked).collect();
        assert_eq!(entries(&map), expected);
    }
}

fn visits<K: Key>() {
    let mut requests = 0;
    for start in STARTS {
        for prefix in probes::<K>(start) {
            let all: Entries = model::<K>(start).into_iter().collect();
            let mut under = all.clone();
            under.retain(|entry| entry.0.starts_with(prefix.bytes()));
            let seen = RefCell::new(Entries::new());
            let visit = |key: &K::Borrowed, value: &u32| {
                use patricia::BorrowedBytes as _;
                seen.borrow_mut().push((key.as_bytes().to_vec(), *value));
            };
            let check = |full: &Entries, result| {
                let seen = seen.take();
                assert!(full.starts_with(&seen));
                assert!(result == Err(AllocError) || seen.len() == full.len());
            };
            let made = || map::<K>(start);
            requests += in_turn(made, |map| map.try_for_each(visit), |_, r| check(&all, r));
            let each = |map: &mut Map<K>| map.try_for_each_prefix(prefix.as_ref(), visit);
            requests += in_turn(made, each, |_, result| check(&under, result));
        }
    }
    assert!(requests > 0);
}

#[test]
fn a_refused_visit_stops_at_the_entry_before() {
    visits::<Vec<u8>>();
    visits::<String>();
}
