//! What several of the tests use: numbers without a pattern, and kinds of keys.
#![allow(dead_code)]

mod units;

use patricia::{BorrowedBytes, Bytes};
use std::fmt::Debug;
use std::hash::Hash;
pub use units::{UnitKey, Units};

/// Numbers without a pattern, the same ones for each seed.
pub struct Random(u64);

impl Random {
    pub fn new(seed: u64) -> Self {
        Random(seed.wrapping_mul(0x9e37_79b9_7f4a_7c15) | 1)
    }

    pub fn number(&mut self) -> u64 {
        self.0 ^= self.0 << 13;
        self.0 ^= self.0 >> 7;
        self.0 ^= self.0 << 17;
        self.0.wrapping_mul(0x2545_f491_4f6c_dd1d) >> 11
    }

    pub fn below(&mut self, n: usize) -> usize {
        (self.number() % n as u64) as usize
    }

    /// Puts a list in some order.
    pub fn shuffle<T>(&mut self, list: &mut [T]) {
        for at in (1..list.len()).rev() {
            list.swap(at, self.below(at + 1));
        }
    }
}

/// A kind of keys of which random ones can be made.
pub trait Kind:
    Bytes<Borrowed = <Self as Kind>::Lent>
    + AsRef<<Self as Kind>::Lent>
    + Clone
    + Ord
    + Hash
    + Debug
    + 'static
{
    type Lent: ?Sized
        + BorrowedBytes
        + ToOwned<Owned = Self>
        + AsRef<Self::Lent>
        + Debug
        + PartialEq;

    /// Items, and lists of them, of which random keys consist.
    const PARTS: &'static [&'static [u8]];

    /// The number of bytes of the first item of a key that is not empty.
    fn item_len(bytes: &[u8]) -> usize;
}

impl Kind for Vec<u8> {
    type Lent = [u8];

    const PARTS: &'static [&'static [u8]] = &[b"a", b"b", b"\xff", b"\0", b"abc", b"ab"];

    fn item_len(_: &[u8]) -> usize {
        1
    }
}

impl Kind for String {
    type Lent = str;

    // characters that share their first bytes
    const PARTS: &'static [&'static [u8]] = &[
        b"a",
        b"\xc3\xa9",
        b"\xc3\xa8",
        b"\xc3\xaa",
        b"\xe3\x81\x82",
        b"\xe3\x81\x84",
        b"\xf0\x9f\x98\x80",
        b"\xf0\x9f\x98\x81",
        b"\0",
    ];

    fn item_len(bytes: &[u8]) -> usize {
        let text = std::str::from_utf8(bytes).unwrap();
        text.chars().next().unwrap().len_utf8()
    }
}

impl Kind for UnitKey {
    type Lent = Units;

    const PARTS: &'static [&'static [u8]] =
        &[b"\0a", b"\0b", b"\x01a", b"\xff\xff", b"\0\0", b"\0a\0b"];

    fn item_len(_: &[u8]) -> usize {
        2
    }
}

/// The borrowed key that has these bytes.
pub fn lend<K: Kind>(bytes: &[u8]) -> &K::Lent {
    K::Lent::from_bytes(bytes)
}

/// The bytes of an owned key.
pub fn bytes<K: Kind>(key: &K) -> Vec<u8> {
    AsRef::<K::Lent>::as_ref(key).as_bytes().to_vec()
}

/// How many of the first `n` bytes of a key are whole items.
pub fn floor<K: Kind>(key: &[u8], n: usize) -> usize {
    let mut floor = 0;
    while floor < n {
        let next = floor + K::item_len(&key[floor..]);
        if next > n {
            break;
        }
        floor = next;
    }
    floor
}

/// The items of a key.
pub fn items<K: Kind>(key: &[u8]) -> Vec<&[u8]> {
    let mut items = Vec::new();
    let mut rest = key;
    while !rest.is_empty() {
        let (item, behind) = rest.split_at(K::item_len(rest));
        items.push(item);
        rest = behind;
    }
    items
}

/// A key of at most so many parts.
pub fn short_key<K: Kind>(random: &mut Random, most: usize) -> Vec<u8> {
    let mut key = Vec::new();
    for _ in 0..random.below(most + 1) {
        key.extend_from_slice(K::PARTS[random.below(K::PARTS.len())]);
    }
    key
}

/// A key, sometimes one that is longer than a label can be.
pub fn any_key<K: Kind>(random: &mut Random) -> Vec<u8> {
    let len = match random.below(40) {
        0 => 250 + random.below(20),
        1 => 55 + random.below(20),
        2 => 500 + random.below(600),
        _ => 0,
    };
    let mut key = K::PARTS[random.below(2)].repeat(len);
    key.extend(short_key::<K>(random, 6));
    key
}

/// Calls a function with as many seeds as the environment says, and prints the one with which it
/// fails.
pub fn for_seeds(usual: u64, f: impl Fn(u64)) {
    struct Seed(u64);
    impl Drop for Seed {
        fn drop(&mut self) {
            if std::thread::panicking() {
                eprintln!("failed with seed {}", self.0);
            }
        }
    }
    let given = std::env::var("PATRICIA_SEEDS").ok();
    let count = given.map_or(usual, |n| n.parse().expect("a number of seeds"));
    for seed in 1..=count {
        let _printed = Seed(seed);
        f(seed);
    }
}
