//! Closures and iterators that panic in calls of sets.

use crate::common::Random;
use crate::iterators::Lending;
use crate::{Fuse, Ledger, keys};
use patricia::StringPatriciaSet;
use std::collections::BTreeSet;
use std::panic::{AssertUnwindSafe, catch_unwind};

type Model = BTreeSet<String>;

fn read(set: &StringPatriciaSet) -> Model {
    let model: Model = set.iter().collect();
    assert_eq!((set.len(), set.iter().count()), (model.len(), model.len()));
    assert!(model.iter().all(|key| set.contains(key)));
    model
}

fn go_on(set: &mut StringPatriciaSet, seed: usize) {
    let mut model = read(set);
    let mut random = Random::new(seed as u64);
    let keys = keys();
    for _ in 0..1000 {
        let key = &keys[random.below(keys.len())];
        match random.below(2) {
            0 => assert_eq!(set.insert(key), model.insert(key.clone())),
            _ => assert_eq!(set.remove(key), model.remove(key)),
        }
    }
    assert_eq!(read(set), model);
}

/// Calls something at a set, with the `n`-th call of a closure panicking, for each `n`.
fn at_each(
    call: impl Fn(&mut StringPatriciaSet, &Ledger),
    wanted: impl Fn(&Model, usize) -> Model,
) {
    for n in 1.. {
        let ledger = Ledger::default();
        let mut set: StringPatriciaSet = keys().iter().collect();
        let before = read(&set);
        ledger.light(Fuse::Call, n);
        let called = catch_unwind(AssertUnwindSafe(|| call(&mut set, &ledger)));
        ledger.light(Fuse::Call, 0);
        let number = if called.is_err() { n } else { 0 };
        assert_eq!(read(&set), wanted(&before, number), "panic {n}");
        go_on(&mut set, n);
        if called.is_ok() {
            assert!(n > 1, "nothing panicked");
            return;
        }
    }
}

#[test]
fn retain_leaves_the_set() {
    let is_kept = |key: &str| key.len() % 2 == 0;
    let call = |set: &mut StringPatriciaSet, ledger: &Ledger| {
        set.retain(|key| {
            ledger.tick(Fuse::Call);
            is_kept(key)
        });
    };
    at_each(call, |before, n| {
        let mut model = before.clone();
        model.retain(|key| n != 0 || is_kept(key));
        model
    });
}

const NEW: [&str; 5] = ["y", "y1", "y2", "zé", "zè!"];

fn before_element(before: &Model, n: usize) -> Model {
    let new = NEW.iter().map(|key| key.to_string());
    let mut model = before.clone();
    model.extend(new.take(n.wrapping_sub(1)));
    model
}

#[test]
fn extend_has_what_came_before() {
    let call = |set: &mut StringPatriciaSet, ledger: &Ledger| {
        set.extend(NEW.iter().inspect(|_| ledger.tick(Fuse::Call)));
    };
    at_each(call, before_element);
}

#[test]
fn sorted_load_of_an_iterator_that_panics_leaves_the_set() {
    let call = |set: &mut StringPatriciaSet, ledger: &Ledger| {
        let new = NEW[..3].iter().chain(["zz"].iter());
        set.sorted_load(new.inspect(|_| ledger.tick(Fuse::Call)))
            .unwrap();
    };
    at_each(call, |before, n| {
        let mut model = before.clone();
        if n == 0 {
            model.extend(["y", "y1", "y2", "zz"].map(str::to_string));
        }
        model
    });
}

#[test]
fn calls_with_a_key_that_panics_leave_the_set() {
    let call = |set: &mut StringPatriciaSet, ledger: &Ledger| {
        set.sorted_load(NEW[..3].iter().map(|key| Lending(key, ledger)))
            .unwrap();
        set.extend(NEW[3..].iter().map(|key| Lending(key, ledger)));
    };
    at_each(call, before_element);
}

#[test]
fn visits_leave_the_set() {
    let call = |set: &mut StringPatriciaSet, ledger: &Ledger| {
        set.for_each(|_| ledger.tick(Fuse::Call));
    };
    at_each(call, |before, _| before.clone());
}
