//! Encodings that claim much and hold little: no call asks for more memory than there are bytes
//! for.
//!
//! The most that is in use in a call, above what was when it began, may be `EACH` bytes for each
//! byte of the tree and the values, and `FIXED` besides; a block that grows counts twice until it
//! has grown. `EACH` comes of the least record, a narrow one: 5 bytes, with a child and a sibling
//! and no value. It may take a node of 64 bytes with 5 beside it, of the records that are due one
//! more, of 32 bytes, and 8 for a node that waits. A list has room for twice what it holds at the
//! most, and counts three times while it grows, so this comes to 3 * 64 + 2 * (5 + 32 + 8) bytes,
//! 57 for each byte of the record. `FIXED` is the first room for records that are due.

#[path = "common/mod.rs"]
mod common;
#[path = "hostile/trees.rs"]
mod trees;

use common::Random;
use patricia::{Bytes, DecodeError, GenericPatriciaMap, GenericPatriciaSet};
use patricia::{PatriciaMap, PatriciaSet};
use std::alloc::{GlobalAlloc, Layout, System};
use std::cell::Cell;
use trees::Levels;

const EACH: usize = 57;
const FIXED: usize = 128;

/// How many encodings are read. `PATRICIA_INPUTS` may name another number.
const INPUTS: usize = if cfg!(debug_assertions) {
    100_000
} else {
    1_000_000
};

thread_local! {
    /// How many bytes this thread has in use, and the most that it had.
    static USED: Cell<isize> = const { Cell::new(0) };
    static MOST: Cell<isize> = const { Cell::new(0) };
}

/// The system's allocator, which counts the bytes of each thread.
struct Counting;

#[global_allocator]
static ALLOCATOR: Counting = Counting;

fn ask(bytes: usize) {
    MOST.set(MOST.get().max(USED.get() + bytes as isize));
}

fn use_more(bytes: isize) {
    USED.set(USED.get() + bytes);
}

// SAFETY: the calls are those of the system's allocator.
unsafe impl GlobalAlloc for Counting {
    unsafe fn alloc(&self, layout: Layout) -> *mut u8 {
        ask(layout.size());
        use_more(layout.size() as isize);
        unsafe { System.alloc(layout) }
    }

    unsafe fn dealloc(&self, at: *mut u8, layout: Layout) {
        use_more(-(layout.size() as isize));
        unsafe { System.dealloc(at, layout) }
    }

    unsafe fn realloc(&self, at: *mut u8, layout: Layout, size: usize) -> *mut u8 {
        ask(size);
        use_more(size as isize - layout.size() as isize);
        unsafe { System.realloc(at, layout, size) }
    }
}

/// What a call returns, and the most bytes that it had in use.
fn counted<R>(call: impl FnOnce() -> R) -> (R, usize) {
    let before = USED.get();
    MOST.set(before);
    let result = call();
    (result, (MOST.get() - before) as usize)
}

/// Asserts that a call that was given so many bytes asked for no more than it may.
fn check(asked: usize, given: usize) {
    assert!(asked <= FIXED + EACH * given, "{asked} bytes for {given}");
}

fn read_map<K: Bytes>(levels: Levels, tree: &[u8], keys: usize) -> Option<DecodeError> {
    type Map<K> = GenericPatriciaMap<K, u64>;
    let values: Vec<u64> = (0..keys as u64).collect();
    let (read, asked) = counted(|| match levels {
        Levels::Narrow => Map::<K>::try_from_tree_bytes(tree, values),
        Levels::Wide => Map::<K>::try_from_wide_tree_bytes(tree, values),
    });
    check(asked, tree.len() + 8 * keys);
    read.err()
}

fn read_set<K: Bytes>(levels: Levels, tree: &[u8], keys: usize) -> Option<DecodeError> {
    let (read, asked) = counted(|| match levels {
        Levels::Narrow => GenericPatriciaSet::<K>::try_from_tree_bytes(tree, keys),
        Levels::Wide => GenericPatriciaSet::<K>::try_from_wide_tree_bytes(tree, keys),
    });
    check(asked, tree.len());
    read.err()
}

/// Reads an encoding that is damaged in some places, or in none. Returns whether it was one.
fn read_damaged(random: &mut Random) -> bool {
    let levels = [Levels::Narrow, Levels::Wide][random.below(2)];
    let (mut tree, mut keys) = trees::any(random, levels);
    for _ in 0..random.below(4) {
        trees::damage(random, levels, &mut tree);
    }
    if random.below(4) == 0 {
        keys = random.below(keys + 2);
    }
    let fault = match random.below(4) {
        0 => read_map::<Vec<u8>>(levels, &tree, keys),
        1 => read_map::<String>(levels, &tree, keys),
        2 => read_set::<Vec<u8>>(levels, &tree, keys),
        _ => read_set::<String>(levels, &tree, keys),
    };
    assert_ne!(fault, Some(DecodeError::Memory));
    fault.is_none()
}

#[test]
fn damaged_encodings_ask_for_little() {
    let inputs = std::env::var("PATRICIA_INPUTS").map(|number| number.parse().unwrap());
    let inputs = inputs.unwrap_or(INPUTS);
    let mut random = Random::new(1);
    let read = (0..inputs).filter(|_| read_damaged(&mut random)).count();
    // some are not damaged, or in a place that says nothing
    assert!(read > inputs / 8 && read < inputs / 2, "{read} of {inputs}");
}

/// Inputs with the longest label and the deepest level and no byte of them, and with marks for more
/// records and values than there are.
const CLAIMS: [(&[u8], DecodeError); 4] = [
    (&[12, 0, 0, 0, 63, 255, 255, 255], DecodeError::Truncated(4)),
    (&[12, 0, 0, 0, 63, 1, 0, 1, 97], DecodeError::Truncated(9)),
    (&[3, 0, 0, 0], DecodeError::TooManyValues),
    (&[15, 0, 0, 0, 3, 1, 0, 1, 97], DecodeError::TooManyValues),
];

/// The same with wide levels.
const WIDE_CLAIMS: [(&[u8], DecodeError); 4] = [
    (
        &[12, 0, 0, 0, 0, 0, 63, 255, 255, 255, 255, 255],
        DecodeError::Truncated(6),
    ),
    (
        &[12, 0, 0, 0, 0, 0, 63, 1, 0, 0, 0, 1, 97],
        DecodeError::Truncated(13),
    ),
    (&[3, 0, 0, 0, 0, 0], DecodeError::TooManyValues),
    (
        &[15, 0, 0, 0, 0, 0, 3, 1, 0, 0, 0, 1, 97],
        DecodeError::TooManyValues,
    ),
];

/// Values without bytes, a million of them.
fn nothings() -> Vec<()> {
    vec![(); 1_000_000]
}

#[test]
fn counts_that_claim_much_ask_for_little() {
    type Map = PatriciaMap<()>;
    for (tree, fault) in CLAIMS {
        let (map, asked) = counted(|| Map::try_from_tree_bytes(tree, nothings()));
        check(asked, tree.len());
        let (set, asked) = counted(|| PatriciaSet::try_from_tree_bytes(tree, 1_000_000));
        check(asked, tree.len());
        assert_eq!((map.err(), set.err()), (Some(fault), Some(fault)));
    }
    for (tree, fault) in WIDE_CLAIMS {
        let (map, asked) = counted(|| Map::try_from_wide_tree_bytes(tree, nothings()));
        check(asked, tree.len());
        let (set, asked) = counted(|| PatriciaSet::try_from_wide_tree_bytes(tree, 1_000_000));
        check(asked, tree.len());
        assert_eq!((map.err(), set.err()), (Some(fault), Some(fault)));
    }
}
