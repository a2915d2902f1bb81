//! The maps and sets from which the tests start.

use patricia::{Bytes, GenericPatriciaMap, GenericPatriciaSet};
use std::collections::BTreeMap;
use std::fmt::Debug;

pub type Map<K> = GenericPatriciaMap<K, u32>;
pub type Set<K> = GenericPatriciaSet<K>;
pub type Model = BTreeMap<Vec<u8>, u32>;
pub type Entries = Vec<(Vec<u8>, u32)>;

/// A kind of keys that is made of texts.
pub trait Key: Bytes + AsRef<<Self as Bytes>::Borrowed> + Clone + Debug + Ord {
    fn of(text: &str) -> Self;

    fn bytes(&self) -> &[u8];
}

impl Key for Vec<u8> {
    fn of(text: &str) -> Self {
        text.into()
    }

    fn bytes(&self) -> &[u8] {
        self
    }
}

impl Key for String {
    fn of(text: &str) -> Self {
        text.into()
    }

    fn bytes(&self) -> &[u8] {
        self.as_bytes()
    }
}

/// A way to make a map.
#[derive(Clone, Copy, Debug)]
pub enum Start {
    Empty,
    EmptyKey,
    /// After inserts and removals that look random, so many.
    Worn(u64),
    /// With keys of 300 bytes and more.
    Long,
    /// With each key before the next one.
    Deep,
    /// As a copy, which has no memory to spare.
    Copied,
}

pub const STARTS: [Start; 7] = [
    Start::Empty,
    Start::EmptyKey,
    Start::Worn(40),
    Start::Worn(150),
    Start::Long,
    Start::Deep,
    Start::Copied,
];

/// A text of few characters, one of them of two bytes.
fn random_text(number: &mut u64) -> String {
    let mut next = || {
        *number = number.wrapping_mul(0x5851_f42d_4c95_7f2d).wrapping_add(99);
        (*number >> 40) as usize
    };
    let len = next() % 7;
    (0..len)
        .map(|_| ["a", "b", "é", "c", "aab"][next() % 5])
        .collect()
}

/// The inserts, with a value, and the removals by which a map is made.
fn steps(start: Start) -> Vec<(String, Option<u32>)> {
    let mut number = 7;
    match start {
        Start::Empty => Vec::new(),
        Start::EmptyKey => vec![(String::new(), Some(1))],
        Start::Worn(steps) => (0..steps as u32)
            .map(|step| (random_text(&mut number), (step % 5 < 3).then_some(step)))
            .collect(),
        Start::Long => (0..9)
            .map(|n| {
                (
                    "xy".repeat(150) + &"z".repeat(n / 2 * 130) + ["p", "q"][n % 2],
                    Some(n as u32),
                )
            })
            .chain([
                ("xy".repeat(70), Some(20)),
                ("xy".repeat(70) + "b", Some(21)),
            ])
            .collect(),
        Start::Copied => [steps(Start::Worn(90)), steps(Start::Long)].concat(),
        Start::Deep => (1..90).map(|n| ("ab".repeat(n), Some(n as u32))).collect(),
    }
}

pub fn map<K: Key>(start: Start) -> Map<K> {
    let mut map = Map::new();
    for (text, value) in steps(start) {
        match value {
            Some(value) => drop(map.insert(K::of(&text), value)),
            None => drop(map.remove(K::of(&text))),
        }
    }
    if matches!(start, Start::Copied) {
        return map.clone();
    }
    map
}

pub fn set<K: Key>(start: Start) -> Set<K> {
    let mut set = Set::new();
    for (text, value) in steps(start) {
        match value {
            Some(_) => set.insert(K::of(&text)),
            None => set.remove(K::of(&text)),
        };
    }
    if matches!(start, Start::Copied) {
        return set.clone();
    }
    set
}

pub fn entries<K: Key>(map: &Map<K>) -> Entries {
    map.iter()
        .map(|(key, value)| (key.bytes().to_vec(), *value))
        .collect()
}

pub fn elements<K: Key>(set: &Set<K>) -> Vec<Vec<u8>> {
    set.iter().map(|key| key.bytes().to_vec()).collect()
}

/// The entries of the map that a start makes.
pub fn model<K: Key>(start: Start) -> Model {
    entries(&map::<K>(start)).into_iter().collect()
}

/// Keys that are there, that are not, that begin some key, and that some key begins.
pub fn probes<K: Key>(start: Start) -> Vec<K> {
    let texts = ["", "a", "b", "é", "aa", "ab", "aé", "ac", "q", "abababx"];
    let mut keys: Vec<K> = texts.into_iter().map(K::of).collect();
    keys.push(K::of(&("xy".repeat(150) + "a")));
    keys.push(K::of(&"xy".repeat(100)));
    let held: Vec<K> = map::<K>(start).keys().collect();
    let most = if matches!(start, Start::Copied) {
        20
    } else {
        8
    };
    let some = held.len() / most + 1;
    keys.extend(held.into_iter().step_by(some));
    keys
}
