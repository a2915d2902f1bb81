//! Closures that panic.

use crate::{Fuse, Ledger, Map, Model, at_each, is_refused, made, same};
use std::rc::Rc;

#[test]
fn retain_keeps_what_was_not_refused() {
    let call = |map: &mut Map, ledger: &Rc<Ledger>| {
        map.retain(|_, value| {
            ledger.tick(Fuse::Call);
            !is_refused(value.number)
        });
    };
    at_each(Fuse::Call, call, |before, n| {
        let asked = n.wrapping_sub(1);
        let stays = |at: usize, number| at >= asked || !is_refused(number);
        let entries = before.iter().enumerate();
        entries
            .filter(|(at, (_, number))| stays(*at, **number))
            .map(|(_, (key, number))| (key.clone(), *number))
            .collect()
    });
}

/// The keys of another map, which is merged into one of all keys.
const OTHER: [&str; 9] = ["", "aa", "ab", "abc", "az", "d3", "d33", "e01", "zz"];

fn other(ledger: &Rc<Ledger>) -> Map {
    let keys = OTHER.iter().zip(100..);
    keys.map(|(key, number)| (key, ledger.value(number)))
        .collect()
}

/// What a map is once the others came, up to the `n`-th that it has too. That one is there if
/// `is_there` holds, and so are those before it.
pub fn merged(before: &Model, n: usize, is_there: bool, sum: fn(u32, u32) -> u32) -> Model {
    let mut model = before.clone();
    let mut common = 0;
    for (key, number) in OTHER.iter().zip(100..) {
        let Some(old) = before.get(*key) else {
            model.insert(key.to_string(), number);
            continue;
        };
        common += 1;
        if common != n || is_there {
            model.insert(key.to_string(), sum(*old, number));
        }
        if common == n {
            break;
        }
    }
    model
}

#[test]
fn merge_with_has_what_came_before() {
    let call = |map: &mut Map, ledger: &Rc<Ledger>| {
        let other = other(ledger);
        map.merge_with(other, |old, new| {
            ledger.tick(Fuse::Call);
            old.number += new.number;
        });
    };
    at_each(Fuse::Call, call, |before, n| {
        merged(before, n, false, |old, new| old + new)
    });
}

#[test]
fn append_has_what_came_before_an_old_value_whose_drop_panics() {
    let call = |map: &mut Map, ledger: &Rc<Ledger>| {
        let mut other = other(ledger);
        map.append(&mut other);
        assert!(other.is_empty());
    };
    at_each(Fuse::Drop, call, |before, n| {
        merged(before, n, true, |_, new| new)
    });
}

#[test]
fn merge_with_has_what_came_before_a_new_value_whose_drop_panics() {
    let call = |map: &mut Map, ledger: &Rc<Ledger>| {
        map.merge_with(other(ledger), |_, new| drop(new));
    };
    at_each(Fuse::Drop, call, |before, n| {
        merged(before, n, true, |old, _| old)
    });
}

#[test]
fn update_leaves_the_map() {
    let call = |map: &mut Map, ledger: &Rc<Ledger>| {
        for key in ["", "ab", "e01"] {
            map.update(key, |_| ledger.tick(Fuse::Call));
        }
    };
    at_each(Fuse::Call, call, same);
}

#[test]
fn visits_leave_the_map() {
    let call = |map: &mut Map, ledger: &Rc<Ledger>| {
        map.for_each(|_, _| ledger.tick(Fuse::Call));
        map.for_each_prefix("e", |_, _| ledger.tick(Fuse::Call));
    };
    at_each(Fuse::Call, call, same);
}

#[test]
fn insert_with_leaves_the_map() {
    let call = |map: &mut Map, ledger: &Rc<Ledger>| {
        map.remove("");
        for key in ["", "ab", "ac", "new"] {
            map.insert_with(key, || {
                ledger.tick(Fuse::Call);
                ledger.value(7)
            });
        }
    };
    at_each(Fuse::Call, call, inserted);
}

#[test]
fn get_or_insert_with_leaves_the_map() {
    let call = |map: &mut Map, ledger: &Rc<Ledger>| {
        map.remove("");
        for key in ["", "ab", "ac", "new"] {
            map.get_or_insert_with(key, || {
                ledger.tick(Fuse::Call);
                ledger.value(7)
            });
        }
    };
    at_each(Fuse::Call, call, inserted);
}

fn inserted(before: &Model, n: usize) -> Model {
    let mut model = before.clone();
    model.remove("");
    let made = n.wrapping_sub(1).min(3);
    for key in &["", "ac", "new"][..made] {
        model.insert(key.to_string(), 7);
    }
    model
}

#[test]
fn loops_over_loans_leave_the_map() {
    let call = |map: &mut Map, ledger: &Rc<Ledger>| {
        map.iter_mut().for_each(|_| ledger.tick(Fuse::Call));
        map.iter_prefix_mut("e")
            .for_each(|_| ledger.tick(Fuse::Call));
        map.values_mut().for_each(|_| ledger.tick(Fuse::Call));
    };
    at_each(Fuse::Call, call, same);
}

#[test]
fn a_loop_over_owned_entries_drops_each_once() {
    let call = |_: &mut Map, ledger: &Rc<Ledger>| {
        made(ledger, false)
            .into_iter()
            .for_each(|_| ledger.tick(Fuse::Call));
    };
    at_each(Fuse::Call, call, same);
}
