//! What a map is after a closure, an iterator or a value of the caller has panicked.
//!
//! Each test has the first call of a kind panic, then the second one, and so on until none does.
//! After each panic the map is whole and can be changed further, and in the end each value has been
//! dropped once. A value whose drop panics is a dropped one.

mod closures;
#[path = "../common/mod.rs"]
mod common;
mod iterators;
mod sets;
mod values;

use common::Random;
use patricia::StringPatriciaMap;
use std::cell::{Cell, RefCell};
use std::cmp::Ordering;
use std::collections::BTreeMap;
use std::panic::{AssertUnwindSafe, catch_unwind, resume_unwind};
use std::rc::Rc;

type Map = StringPatriciaMap<Value>;

/// The entries of a map by their numbers.
type Model = BTreeMap<String, u32>;

/// What panics.
#[derive(Clone, Copy)]
enum Fuse {
    Call,
    Drop,
    Clone,
    Compare,
}

/// How often each value was dropped, and after how many calls of a kind one panics.
#[derive(Default)]
struct Ledger {
    drops: RefCell<Vec<u32>>,
    fuses: [Cell<usize>; 4],
}

impl Ledger {
    /// Has the `n`-th call of a kind from now on panic; with 0 none does.
    fn light(&self, fuse: Fuse, n: usize) {
        self.fuses[fuse as usize].set(n);
    }

    /// Counts a call of a kind.
    fn tick(&self, fuse: Fuse) {
        let left = &self.fuses[fuse as usize];
        if left.get() == 1 && !std::thread::panicking() {
            left.set(0);
            // as a panic, without a message
            resume_unwind(Box::new("fuse"));
        }
        left.set(left.get().saturating_sub(1));
    }

    fn value(self: &Rc<Self>, number: u32) -> Value {
        let mut drops = self.drops.borrow_mut();
        drops.push(0);
        Value {
            id: drops.len() - 1,
            number,
            ledger: self.clone(),
        }
    }

    fn alive(&self) -> usize {
        let drops = self.drops.borrow();
        drops.iter().filter(|drops| **drops == 0).count()
    }

    /// Each value was dropped once.
    fn check(&self) {
        assert!(self.drops.borrow().iter().all(|drops| *drops == 1));
    }
}

/// A value that counts its drops.
struct Value {
    id: usize,
    number: u32,
    ledger: Rc<Ledger>,
}

impl Drop for Value {
    fn drop(&mut self) {
        self.ledger.drops.borrow_mut()[self.id] += 1;
        self.ledger.tick(Fuse::Drop);
    }
}

impl Clone for Value {
    fn clone(&self) -> Self {
        self.ledger.tick(Fuse::Clone);
        self.ledger.value(self.number)
    }
}

impl PartialEq for Value {
    fn eq(&self, other: &Self) -> bool {
        self.ledger.tick(Fuse::Compare);
        self.number == other.number
    }
}

impl Eq for Value {}

impl PartialOrd for Value {
    fn partial_cmp(&self, other: &Self) -> Option<Ordering> {
        Some(self.cmp(other))
    }
}

impl Ord for Value {
    fn cmp(&self, other: &Self) -> Ordering {
        self.ledger.tick(Fuse::Compare);
        self.number.cmp(&other.number)
    }
}

/// Keys with labels that are shared, joined, and longer than a node can have.
fn keys() -> Vec<String> {
    let long = "x".repeat(300);
    let mut keys: Vec<String> = ["", "a", "ab", "abc", "abd", "b", "bé", "bè", "c"]
        .iter()
        .map(|key| key.to_string())
        .collect();
    keys.extend([long.clone(), format!("{long}y"), format!("{long}z")]);
    keys.extend((0..8).map(|n| format!("d{n}")));
    keys.extend((0..6).map(|n| format!("e{}{n}", n / 2)));
    keys
}

/// A map of all keys, with numbers from 0 on in key order. One that is worn has free nodes.
fn made(ledger: &Rc<Ledger>, is_worn: bool) -> Map {
    let mut map = Map::new();
    let mut keys = keys();
    keys.sort();
    for (number, key) in keys.iter().enumerate().rev() {
        map.insert(key, ledger.value(number as u32));
    }
    if is_worn {
        for key in ["f", "f1", "f2", "abe", "e001", "dd"] {
            map.insert(key, ledger.value(0));
        }
        for key in ["f", "f1", "f2", "abe", "e001", "dd"] {
            map.remove(key);
        }
    }
    map
}

/// The entries of a map, which is whole: all ways to read it agree.
fn read(map: &Map) -> Model {
    let entries = map.iter().map(|(key, value)| (key, value.number));
    let model: Model = entries.collect();
    assert_eq!((map.len(), map.iter().count()), (model.len(), model.len()));
    assert_eq!(map.is_empty(), model.is_empty());
    for (key, number) in &model {
        assert_eq!(map.get(key).map(|value| value.number), Some(*number));
    }
    let numbers = map.values().map(|value| value.number);
    assert!(numbers.eq(model.values().copied()));
    model
}

/// Changes a map at random, as std's ordered map.
fn go_on(map: &mut Map, ledger: &Rc<Ledger>, seed: usize) {
    let mut model = read(map);
    let mut random = Random::new(seed as u64);
    let keys = keys();
    for number in 0..1000 {
        let key = &keys[random.below(keys.len())];
        let cut = (0..=random.below(3)).map(|_| 'e').collect::<String>();
        let key = if random.below(8) == 0 { &cut } else { key };
        let old = match random.below(2) {
            0 => (
                map.insert(key, ledger.value(number)),
                model.insert(key.clone(), number),
            ),
            _ => (map.remove(key), model.remove(key)),
        };
        assert_eq!(old.0.map(|value| value.number), old.1);
        assert_eq!(map.len(), model.len());
    }
    assert!(read(map) == model);
}

/// Calls something at a map, with the `n`-th call of a kind panicking, for each `n`. After the
/// panic of the `n`-th one the map has to be as `wanted` says of it and of the map before; with 0
/// there was no panic.
fn at_each(
    fuse: Fuse,
    call: impl Fn(&mut Map, &Rc<Ledger>),
    wanted: impl Fn(&Model, usize) -> Model,
) {
    for is_worn in [false, true] {
        for n in 1.. {
            let ledger = Rc::new(Ledger::default());
            let mut map = made(&ledger, is_worn);
            let before = read(&map);
            ledger.light(fuse, n);
            let called = catch_unwind(AssertUnwindSafe(|| call(&mut map, &ledger)));
            ledger.light(fuse, 0);
            let number = if called.is_err() { n } else { 0 };
            assert_eq!(read(&map), wanted(&before, number), "panic {n}");
            assert_eq!(ledger.alive(), map.len(), "panic {n}");
            go_on(&mut map, &ledger, n);
            drop(map);
            ledger.check();
            if called.is_ok() {
                assert!(n > 1, "nothing panicked");
                break;
            }
        }
    }
}

/// The same map, whatever panicked.
fn same(before: &Model, _: usize) -> Model {
    before.clone()
}

/// Numbers of the entries that some of the tests take out.
fn is_refused(number: u32) -> bool {
    number % 3 != 1
}
