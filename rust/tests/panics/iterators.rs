//! Iterators and keys of the caller that panic.

use crate::{Fuse, Ledger, Map, Model, at_each, same};
use std::rc::Rc;

/// A key that counts how often it is lent.
pub struct Lending<'a>(pub &'a str, pub &'a Ledger);

impl AsRef<str> for Lending<'_> {
    fn as_ref(&self) -> &str {
        self.1.tick(Fuse::Call);
        self.0
    }
}

const NEW: [&str; 6] = ["y", "y1", "y2", "z", "za", "zéa"];

/// Entries that come behind all others, of which the `n`-th panics.
fn entries(ledger: &Rc<Ledger>) -> impl Iterator<Item = (&'static str, crate::Value)> {
    let entries = NEW.into_iter().zip(100..);
    entries.map(|(key, number)| {
        ledger.tick(Fuse::Call);
        (key, ledger.value(number))
    })
}

/// The first new entries before the `n`-th.
fn before_entry(before: &Model, n: usize) -> Model {
    let mut model = before.clone();
    let new = NEW.iter().map(|key| key.to_string()).zip(100..);
    model.extend(new.take(n.wrapping_sub(1)));
    model
}

#[test]
fn extend_has_what_came_before() {
    let call = |map: &mut Map, ledger: &Rc<Ledger>| map.extend(entries(ledger));
    at_each(Fuse::Call, call, before_entry);
}

#[test]
fn extend_has_what_came_before_an_old_value_whose_drop_panics() {
    let keys = ["ab", "ac", "", "d3", "new", "e01"];
    let call = |map: &mut Map, ledger: &Rc<Ledger>| {
        let entries = keys.iter().zip(100..);
        map.extend(entries.map(|(key, number)| (key, ledger.value(number))));
    };
    at_each(Fuse::Drop, call, |before, n| {
        let mut model = before.clone();
        let mut common = 0;
        for (key, number) in keys.iter().zip(100..) {
            common += usize::from(before.contains_key(*key));
            model.insert(key.to_string(), number);
            if common == n && before.contains_key(*key) {
                break;
            }
        }
        model
    });
}

#[test]
fn sorted_load_of_an_iterator_that_panics_leaves_the_map() {
    let call = |map: &mut Map, ledger: &Rc<Ledger>| {
        map.sorted_load(entries(ledger)).unwrap();
    };
    // the entries are listed before the first of them is put in
    at_each(Fuse::Call, call, |before, n| match n {
        0 => before_entry(before, 0),
        _ => before.clone(),
    });
}

#[test]
fn sorted_load_of_keys_that_panic_keeps_the_map() {
    let call = |map: &mut Map, ledger: &Rc<Ledger>| {
        let entries = NEW.iter().zip(100..);
        let entries = entries.map(|(key, number)| (Lending(key, ledger), ledger.value(number)));
        map.sorted_load(entries).unwrap();
    };
    at_each(Fuse::Call, call, before_entry);
}

#[test]
fn sorted_load_keeps_what_came_before_a_refused_value_whose_drop_panics() {
    let call = |map: &mut Map, ledger: &Rc<Ledger>| {
        let keys = NEW[..3].iter().chain(["a", "zz"].iter());
        let entries = keys.map(|key| (key, ledger.value(5)));
        assert!(map.sorted_load(entries).is_err());
    };
    at_each(Fuse::Drop, call, |before, _| {
        let mut model = before.clone();
        model.extend(NEW[..3].iter().map(|key| (key.to_string(), 5)));
        model
    });
}

#[test]
fn calls_with_a_key_that_panics_leave_the_map() {
    let call = |map: &mut Map, ledger: &Rc<Ledger>| {
        let key = |key| Lending(key, ledger);
        map.insert(key("new"), ledger.value(1));
        map.get(key("ab"));
        map.get_many(&[key("ab"), key("b"), key("new")]);
        map.longest_many(&[key("ab"), key("b"), key("new")]);
        assert!(map.range(key("a")..key("b")).count() > 0);
        assert_eq!(map.remove_prefix(key("ne")), 1);
    };
    at_each(Fuse::Call, call, |before, n| {
        let mut model = before.clone();
        if n > 1 {
            model.insert("new".to_string(), 1);
        }
        model
    });
}

#[test]
fn collecting_drops_each_once() {
    let call = |_: &mut Map, ledger: &Rc<Ledger>| {
        let map: Map = entries(ledger).collect();
        assert_eq!(map.len(), NEW.len());
        let map = Map::from_sorted_iter(entries(ledger)).unwrap();
        assert_eq!(map.len(), NEW.len());
        assert!(Map::try_from_iter(entries(ledger)).is_ok());
    };
    at_each(Fuse::Call, call, same);
}

#[test]
fn collecting_keys_that_panic_drops_each_once() {
    let call = |_: &mut Map, ledger: &Rc<Ledger>| {
        let value = |key| (Lending(key, ledger), ledger.value(1));
        let map: Map = NEW.into_iter().rev().chain(["y1"]).map(value).collect();
        assert_eq!(map.len(), NEW.len());
        let map = Map::from_sorted_iter(NEW.into_iter().map(value)).unwrap();
        assert_eq!(map.len(), NEW.len());
    };
    at_each(Fuse::Call, call, same);
}

#[test]
fn collecting_drops_each_once_if_drops_panic() {
    let call = |_: &mut Map, ledger: &Rc<Ledger>| {
        let twice = NEW.into_iter().chain(NEW).map(|key| (key, ledger.value(1)));
        drop(twice.collect::<Map>());
        let unordered = NEW.into_iter().rev().map(|key| (key, ledger.value(1)));
        assert!(Map::from_sorted_iter(unordered).is_err());
        let values = (0..4).map(|number| ledger.value(number)).collect();
        let bytes = [12, 0, 0, 0, 3, 1, 0, 1, 97];
        assert!(Map::from_tree_bytes(&bytes, values).is_err());
    };
    at_each(Fuse::Drop, call, same);
}
