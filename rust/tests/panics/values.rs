//! Values whose drop, clone or comparison panics.

use crate::{Fuse, Ledger, Map, Model, at_each, is_refused, made, same};
use std::rc::Rc;

#[test]
fn insert_has_the_new_value() {
    let call = |map: &mut Map, ledger: &Rc<Ledger>| {
        for key in ["ab", "", "e01"] {
            map.insert(key, ledger.value(100));
        }
    };
    at_each(Fuse::Drop, call, |before, n| {
        let mut model = before.clone();
        for key in &["ab", "", "e01"][..n.wrapping_sub(1).min(2) + 1] {
            model.insert(key.to_string(), 100);
        }
        model
    });
}

/// The map without the first `n` of some keys, or without all with 0.
fn without(before: &Model, keys: &[&str], n: usize) -> Model {
    let mut model = before.clone();
    let n = if n == 0 { keys.len() } else { n };
    for key in &keys[..n] {
        model.remove(*key);
    }
    model
}

#[test]
fn remove_has_removed() {
    let keys = ["ab", "", "e01", "abc", "a"];
    let call = |map: &mut Map, _: &Rc<Ledger>| {
        for key in keys {
            map.remove(key);
        }
    };
    at_each(Fuse::Drop, call, |before, n| without(before, &keys, n));
}

#[test]
fn pops_have_removed() {
    let call = |map: &mut Map, _: &Rc<Ledger>| {
        for _ in 0..3 {
            map.pop_first();
            map.pop_last();
        }
    };
    at_each(Fuse::Drop, call, |before, n| {
        let mut model = before.clone();
        for at in 0..if n == 0 { 6 } else { n } {
            match at % 2 {
                0 => model.pop_first(),
                _ => model.pop_last(),
            };
        }
        model
    });
}

#[test]
fn clear_has_removed_all() {
    let call = |map: &mut Map, _: &Rc<Ledger>| map.clear();
    at_each(Fuse::Drop, call, |_, _| Model::new());
}

#[test]
fn retain_has_removed_what_was_refused() {
    let call = |map: &mut Map, _: &Rc<Ledger>| map.retain(|_, value| !is_refused(value.number));
    at_each(Fuse::Drop, call, |before, n| {
        let refused = before.iter().filter(|entry| is_refused(*entry.1));
        let keys: Vec<&str> = refused.map(|(key, _)| key.as_str()).collect();
        without(before, &keys, n)
    });
}

fn without_prefix(before: &Model, prefix: &str) -> Model {
    let mut model = before.clone();
    model.retain(|key, _| !key.starts_with(prefix));
    model
}

#[test]
fn split_has_removed_the_part() {
    for prefix in ["", "a", "ab", "d", "e0", "xx", "xxxxy"] {
        let call = |map: &mut Map, ledger: &Rc<Ledger>| {
            drop(map.split_by_prefix(prefix));
            // so that there is a drop in any case
            drop(ledger.value(0));
        };
        at_each(Fuse::Drop, call, |before, _| without_prefix(before, prefix));
    }
}

#[test]
fn remove_prefix_has_removed_the_part() {
    for prefix in ["", "a", "ab", "d", "e0", "xx"] {
        let call = |map: &mut Map, _: &Rc<Ledger>| assert!(map.remove_prefix(prefix) > 0);
        at_each(Fuse::Drop, call, |before, _| without_prefix(before, prefix));
    }
}

#[test]
fn a_map_that_is_dropped_drops_each_once() {
    let call = |map: &mut Map, _: &Rc<Ledger>| drop(std::mem::take(map));
    at_each(Fuse::Drop, call, |_, _| Model::new());
}

#[test]
fn an_iterator_that_is_dropped_drops_each_once() {
    for taken in [0, 1, 7, 100] {
        let call = |map: &mut Map, _: &Rc<Ledger>| {
            let mut entries = std::mem::take(map).into_iter();
            entries.by_ref().take(taken).for_each(drop);
        };
        at_each(Fuse::Drop, call, |_, _| Model::new());
    }
}

#[test]
fn loans_are_written_to() {
    let call = |map: &mut Map, ledger: &Rc<Ledger>| {
        for (_, value) in map.iter_prefix_mut("e") {
            *value = ledger.value(100);
        }
        *map.get_mut("b").unwrap() = ledger.value(100);
    };
    at_each(Fuse::Drop, call, |before, n| {
        let mut model = before.clone();
        let n = if n == 0 { 7 } else { n };
        let changed = before.keys().filter(|key| key.starts_with('e'));
        let changed = changed.map(String::as_str).chain(["b"]);
        for key in changed.take(n) {
            model.insert(key.to_string(), 100);
        }
        model
    });
}

#[test]
fn a_clone_that_panics_leaves_the_map() {
    let call = |map: &mut Map, _: &Rc<Ledger>| {
        let copy = map.clone();
        assert!(copy.len() == map.len() && copy.get("ab").is_some());
    };
    at_each(Fuse::Clone, call, same);
}

#[test]
fn a_comparison_that_panics_leaves_the_map() {
    let call = |map: &mut Map, ledger: &Rc<Ledger>| {
        let other = made(ledger, false);
        assert!(*map == other);
        assert!(map.partial_cmp(&&mut other.clone()).is_some());
        assert!((*map).cmp(&other).is_eq());
    };
    at_each(Fuse::Compare, call, same);
}

#[test]
fn a_drop_that_panics_leaves_a_clone() {
    let call = |map: &mut Map, _: &Rc<Ledger>| drop(map.clone());
    at_each(Fuse::Drop, call, same);
}
