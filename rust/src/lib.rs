//! Ordered maps and sets whose keys share their common prefixes: longest-prefix look-ups, entries
//! under a prefix, ranges, fuzzy search.
//!
//! The names and the behaviour are those of the crate `patricia_tree` 0.10.2: a program for it
//! compiles with another name of the crate. [`PatriciaMap`] and [`PatriciaSet`] have byte strings
//! as keys, [`StringPatriciaMap`] and [`StringPatriciaSet`] texts, and the generic types any kind
//! of keys that is [`Bytes`].
//!
//! ```
//! use patricia::StringPatriciaMap;
//!
//! let mut map = StringPatriciaMap::new();
//! map.insert("/", "home");
//! map.insert("/blog", "blog");
//! assert_eq!(map.get_longest_common_prefix("/blog/2024"), Some(("/blog", &"blog")));
//! ```
//!
//! # Which call
//!
//! | to | call |
//! |---|---|
//! | look up, insert, remove | `get`, `contains_key`, `insert`, `remove`, `get_many` |
//! | find the longest prefix, or all prefixes | `get_longest_common_prefix`, `common_prefixes` |
//! | list the entries under a prefix | `iter_prefix`, `cursor_prefix`, `count_prefix` |
//! | list a range | `range`, `cursor_range`, `first_after`, `last_before` |
//! | search with misspellings | `within` |
//! | go over all | `cursor`, `for_each`, `iter`, `keys`, `values` |
//! | change values | `get_mut`, `update`, `get_or_insert_with`, `iter_mut`, `values_mut` |
//! | take entries out | `split_by_prefix`, `remove_prefix`, `retain`, `pop_first`, `pop_last` |
//! | combine | `extend`, `append`, `merge_with`, `union`, `intersection`, `difference` |
//! | store and load | `tree_bytes`, `from_tree_bytes`; the feature `serde` |
//!
//! Keys are in the order of their bytes. The tree stores a prefix that keys share once, and no key
//! as a whole: iterators make the keys that they return, and a [`map::Cursor`] lends them in place
//! of that, which is faster.
//!
//! # Memory
//!
//! If memory runs out, calls abort as those of std's collections do. Each call that may run out of
//! memory has a form whose name begins with `try_`, which returns an error in that case; its
//! documentation says what is left. Values themselves are the caller's: a clone of one that runs
//! out of memory aborts.
//!
//! # Panics of callers
//!
//! If a closure or an iterator of the caller panics, or `Drop`, `Clone` or `PartialEq` of a value,
//! the map has all entries that it was not asked to remove, and can be used further.
//!
//! # What is proved
//!
//! The library is written in Rattle: Rust with contracts, which a checker proves. The module
//! `proved` is the text of its sources without the contracts. A program removes them, and a second
//! program checks that nothing else is removed or changed but what a list of exceptions names:
//! most of these give the map back, or drop values last, so that a panic of the caller loses no
//! entry. For the sources it is proved that, with a kind of keys that keeps its law, each call has
//! the answer of a finite map, that no call panics, and that each call ends.
//!
//! Not proved are the exceptions, these two programs, the module `rt`, which implements Rattle's
//! standard library with Rust's, and the other modules of this crate, which define its public
//! types. Rust's compiler replaces Rattle's. The crate has no unsafe code, so a fault in any of
//! these is a wrong answer, a panic or a call that does not end, and never undefined behaviour.
//!
//! On targets with 32-bit pointers the crate is tested and not proved: a `usize` has 64 bits in
//! the proofs.
//!
//! # Features
//!
//! `serde` implements serde's `Serialize` and `Deserialize` for maps and sets, in the form of
//! `patricia_tree`: a pair of the tree bytes and the values in key order.
//!
//! The crate is `no_std` and needs `alloc`. It compiles with Rust 1.85 and later.
#![no_std]
#![forbid(unsafe_code)]
#![warn(missing_docs)]

extern crate alloc as memory;

mod cursor;
mod errors;
mod iter;
mod iter_mut;
mod key;
pub mod map;
mod parts;
#[rustfmt::skip]
mod proved;
#[allow(dead_code, unused_imports)]
mod rt;
#[cfg(feature = "serde")]
mod serde;
pub mod set;
#[cfg(workbench)]
#[allow(missing_docs)]
pub mod workbench;

pub use errors::{AllocError, DecodeError, LoadError, NotInOrder, Refused, TooDeep, WireError};
pub use key::{BorrowedBytes, Bytes};
pub use map::{GenericPatriciaMap, PatriciaMap, StringPatriciaMap};
pub use set::{GenericPatriciaSet, PatriciaSet, StringPatriciaSet};
