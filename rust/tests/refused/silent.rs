//! Calls that make no request for memory, and how many a search by distance makes.

use crate::starts::{Key, STARTS, map, probes, set};
use patricia::workbench::{Global, Router, made, refuse};
use patricia::{PatriciaMap, PatriciaSet};

/// Asserts that a call makes no request.
fn silent<R>(name: &str, call: impl FnOnce() -> R) -> R {
    refuse(1);
    let answer = call();
    assert_eq!(made(), 0, "{name} makes a request");
    refuse(0);
    answer
}

fn look_ups<K: Key>() {
    for start in STARTS {
        let mut map = map::<K>(start);
        let keys = probes::<K>(start);
        for key in &keys {
            silent("get", || map.get(key).copied());
            silent("get_mut", || map.get_mut(key).copied());
            silent("contains_key", || map.contains_key(key));
            silent("len", || (map.len(), map.is_empty()));
            silent("longest", || map.get_longest_common_prefix(key).is_some());
            silent("longest_mut", || {
                map.get_longest_common_prefix_mut(key).is_some()
            });
            silent("longest_len", || map.longest_common_prefix_len(key));
            silent("common_prefixes", || map.common_prefixes(key).count());
            silent("common_prefix_values", || {
                map.common_prefix_values(key).count()
            });
            let owned = key.clone();
            silent("values_owned", || {
                map.common_prefix_values_owned(owned).count()
            });
            silent("update", || map.update(key, |value| *value += 1));
            silent("index", || map.get(key).map(|_| map[key]));
        }
        silent("get_many_into", || {
            map.get_many_into(&keys, &mut [None; 99])
        });
        silent("contains_many_into", || {
            map.contains_many_into(&keys, &mut [false; 99])
        });
        silent("longest_many_into", || {
            map.longest_many_into(&keys, &mut [None; 99])
        });
        silent("cursor", || drop(map.cursor()));
    }
}

#[test]
fn look_ups_of_a_map_make_no_request() {
    look_ups::<Vec<u8>>();
    look_ups::<String>();
}

fn changes<K: Key>() {
    for start in STARTS {
        let mut map = map::<K>(start);
        for key in probes::<K>(start) {
            if map.contains_key(&key) || key.bytes().is_empty() {
                silent("insert", || map.insert(&key, 5));
                silent("insert_with", || map.insert_with(&key, || 5));
                silent("get_or_insert_with", || *map.get_or_insert_with(&key, || 5));
            } else {
                silent("remove", || assert_eq!(map.remove(&key), None));
            }
        }
        silent("remove", || map.remove(K::of("")));
        silent("split_by_prefix", || {
            map.split_by_prefix(K::of("qqq")).len()
        });
        silent("remove_prefix", || map.remove_prefix(K::of("qqq")));
        silent("split_by_prefix", || map.split_by_prefix(K::of("")).len());
        silent("new", patricia::GenericPatriciaMap::<K, u32>::new);
        silent("clear", || map.clear());
    }
}

#[test]
fn changes_at_keys_that_are_there_make_no_request() {
    changes::<Vec<u8>>();
    changes::<String>();
}

fn sets<K: Key>() {
    for start in STARTS {
        let mut set = set::<K>(start);
        for key in probes::<K>(start) {
            silent("contains", || set.contains(&key));
            silent("longest", || set.get_longest_common_prefix(&key).is_some());
            silent("longest_len", || set.longest_common_prefix_len(&key));
            silent("common_prefixes", || set.common_prefixes(&key).count());
            if set.contains(&key) || key.bytes().is_empty() {
                silent("insert", || set.insert(&key));
            } else {
                silent("remove", || assert!(!set.remove(&key)));
            }
        }
        silent("len", || (set.len(), set.is_empty()));
        silent("split_by_prefix", || set.split_by_prefix(K::of("")).len());
    }
}

#[test]
fn look_ups_of_a_set_make_no_request() {
    sets::<Vec<u8>>();
    sets::<String>();
}

/// Two keys that are one edit from `abc`, and so many that are far from it, each with a byte more
/// than the one before: a search that came to each would ask for more memory, the longer they are.
fn far_keys(count: usize) -> Vec<String> {
    let far = (0..count).map(|n| format!("far{}", "x".repeat(n)));
    ["ab", "xbc"]
        .map(str::to_string)
        .into_iter()
        .chain(far)
        .collect()
}

/// How many requests a search makes for the keys that are one edit from `abc`, of which two are.
fn searched(next: impl FnMut() -> bool) -> usize {
    refuse(0);
    let found = std::iter::repeat_with(next)
        .take_while(|found| *found)
        .count();
    assert_eq!(found, 2);
    made()
}

#[test]
fn a_search_makes_no_request_for_keys_that_are_too_far() {
    let requests = [10, 200].map(|count| {
        let keys = far_keys(count);
        let set = PatriciaSet::from_iter(&keys);
        let map = PatriciaMap::from_iter(keys.iter().map(|key| (key, 1)));
        let (mut of_map, mut of_set) = (map.within("abc", 1), set.within("abc", 1));
        (searched(|| of_map.advance()), searched(|| of_set.advance()))
    });
    assert!(
        requests[0] == requests[1] && requests[0].0 > 0,
        "{requests:?}"
    );
}

#[test]
fn routes_make_no_request() {
    let mut router = Router::new(Global);
    for (prefix, target) in [("/", 1), ("/api/", 2), ("/api/users", 3)] {
        assert!(router.add(prefix, target).is_ok());
    }
    silent("new", || Router::<String, u32>::new(Global).is_empty());
    silent("route", || {
        assert_eq!(router.route("/api/users/7"), Some(("/api/users", &3)));
        assert_eq!(router.route("api"), None);
    });
    silent("add", || router.add("/", 4).ok());
    silent("drop_prefix", || router.drop_prefix("/zzz").ok());
    silent("drop_prefix", || {
        assert_eq!(router.drop_prefix("").ok(), Some(3))
    });
}
