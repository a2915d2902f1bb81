//! Calls that return an error if memory runs out, with an allocator that refuses a request.

use patricia::{AllocError, DecodeError, LoadError, PatriciaSet, Refused, StringPatriciaMap};
use std::alloc::{GlobalAlloc, Layout, System};
use std::cell::Cell;
use std::fmt::Debug;

thread_local! {
    /// How many requests of this thread are left up to the one that is refused, or 0.
    static LEFT: Cell<usize> = const { Cell::new(0) };
}

/// The system's allocator, which refuses a request on demand.
struct Refusing;

#[global_allocator]
static ALLOCATOR: Refusing = Refusing;

fn is_refused() -> bool {
    let left = LEFT.get();
    LEFT.set(left.saturating_sub(1));
    left == 1
}

// SAFETY: the calls are those of the system's allocator, or return no memory.
unsafe impl GlobalAlloc for Refusing {
    unsafe fn alloc(&self, layout: Layout) -> *mut u8 {
        if is_refused() {
            return std::ptr::null_mut();
        }
        unsafe { System.alloc(layout) }
    }

    unsafe fn dealloc(&self, at: *mut u8, layout: Layout) {
        unsafe { System.dealloc(at, layout) }
    }

    unsafe fn realloc(&self, at: *mut u8, layout: Layout, size: usize) -> *mut u8 {
        if is_refused() {
            return std::ptr::null_mut();
        }
        unsafe { System.realloc(at, layout, size) }
    }
}

/// Calls something with the `n`-th request for memory refused.
fn refusing<R>(n: usize, call: impl FnOnce() -> R) -> R {
    LEFT.set(n);
    let result = call();
    LEFT.set(0);
    result
}

type Map = StringPatriciaMap<u32>;

fn map() -> Map {
    let mut map: Map = (0..40).map(|n| (format!("{n:02}é"), n)).collect();
    map.extend([("", 100), ("0", 101), ("ab", 102), ("ac", 103)]);
    map.insert("x".repeat(600), 104);
    map
}

fn entries(map: &Map) -> Vec<(String, u32)> {
    map.iter().map(|(key, value)| (key, *value)).collect()
}

/// Calls something with the first request refused, then with the second one, and so on until none
/// is. After an error, of which there are at least so many, the map has to be as it was.
fn at_each<R, E>(call: impl Fn(&mut Map) -> Result<R, E>, check: impl Fn(E), least: usize) {
    let mut errors = 0;
    for n in 1.. {
        let mut map = map();
        let before = entries(&map);
        LEFT.set(n);
        let result = call(&mut map);
        let is_over = LEFT.replace(0) > 0;
        if let Err(error) = result {
            errors += 1;
            check(error);
            assert_eq!(entries(&map), before);
            assert_eq!(map.len(), before.len());
            map.insert("new", 7);
            assert_eq!(map.remove("0"), Some(101));
            assert_eq!(map.len(), before.len());
        }
        if is_over {
            break;
        }
    }
    assert!(errors >= least, "{errors} errors");
}

fn is_memory<E: Debug + PartialEq>(wanted: E) -> impl Fn(E) {
    move |error| assert_eq!(error, wanted)
}

#[test]
fn a_refused_insert_hands_the_value_back() {
    for key in ["new", "é", "aa", "abc"] {
        let call = |map: &mut Map| {
            // so that there is no room left
            let copy = map.try_clone().map_err(|_| Refused { value: 9 })?;
            let old = std::mem::replace(map, copy);
            let inserted = map.try_insert(key, 9);
            if inserted.is_err() {
                *map = old;
            }
            inserted
        };
        at_each(call, is_memory(Refused { value: 9 }), 4);
    }
}

#[test]
fn a_refused_change_leaves_the_map() {
    let memory = || is_memory(AllocError);
    at_each(|map| map.try_split_by_prefix("0"), memory(), 1);
    at_each(|map| map.try_remove_prefix("1"), memory(), 1);
    at_each(|map| map.try_pop_last(), memory(), 1);
    at_each(|map| map.try_insert_with("new", || 1), memory(), 0);
    at_each(
        |map| map.try_get_or_insert_with("abcd", || 1).map(|_| ()),
        memory(),
        0,
    );
    at_each(|map| map.try_retain(|_, _| true), memory(), 1);
}

#[test]
fn a_refused_copy_is_an_error() {
    let memory = || is_memory(AllocError);
    at_each(|map| map.try_clone(), memory(), 2);
    at_each(|map| map.try_tree_bytes(), |_| {}, 1);
    at_each(|map| map.try_wide_tree_bytes(), |_| {}, 1);
    at_each(|map| map.try_get_many(&["a", "ab"]).map(drop), memory(), 1);
    at_each(|map| map.try_contains_many(&["a"]), memory(), 1);
    at_each(|map| map.try_longest_many(&["a"]).map(drop), memory(), 1);
    at_each(|map| map.try_first_after("a").map(drop), memory(), 1);
    at_each(|map| map.try_last_before("a").map(drop), memory(), 1);
    at_each(|map| map.try_last_key_value().map(drop), memory(), 1);
}

/// Takes all items of an iterator up to an error.
fn drain<T>(mut next: impl FnMut() -> Result<Option<T>, AllocError>) -> Result<usize, AllocError> {
    let mut count = 0;
    while next()?.is_some() {
        count += 1;
    }
    Ok(count)
}

#[test]
fn a_refused_step_of_an_iterator_is_an_error() {
    let all = |map: &mut Map| {
        let mut iter = map.iter();
        drain(|| iter.try_next())
    };
    at_each(all, is_memory(AllocError), 40);
    let all = |map: &mut Map| {
        let mut iter = map.iter_prefix("0");
        drain(|| iter.try_next())
    };
    at_each(all, is_memory(AllocError), 10);
    let all = |map: &mut Map| {
        let mut range = map.range("0".."3");
        drain(|| range.try_next())
    };
    at_each(all, is_memory(AllocError), 30);
    let all = |map: &mut Map| {
        let mut near = map.within("00é", 1);
        drain(|| near.try_next())
    };
    at_each(all, is_memory(AllocError), 10);
    let all = |map: &mut Map| {
        let mut cursor = map.cursor_range("0".."3");
        drain(|| Ok(cursor.try_advance()?.then_some(())))
    };
    at_each(all, is_memory(AllocError), 1);
}

#[test]
fn a_refused_step_of_an_iterator_that_lends_is_an_error() {
    let all = |map: &mut Map| {
        let mut iter = map.iter_mut();
        drain(|| iter.try_next())
    };
    at_each(all, is_memory(AllocError), 40);
    let all = |map: &mut Map| {
        let mut iter = map.iter_prefix_mut("0");
        drain(|| iter.try_next())
    };
    at_each(all, is_memory(AllocError), 10);
    let all = |map: &mut Map| {
        let mut values = map.values_mut();
        drain(|| values.try_next())
    };
    at_each(all, is_memory(AllocError), 2);
}

/// After an error the lengths that iterators say are 0, and they have ended.
#[test]
fn an_iterator_has_ended_after_an_error() {
    let map = map();
    let mut iter = map.iter();
    assert!(iter.try_next().is_ok());
    assert_eq!(refusing(1, || iter.try_next().map(|_| ())), Err(AllocError));
    assert_eq!((iter.len(), iter.next()), (0, None));
    let mut owned = map.into_iter();
    assert!(owned.try_next().is_ok());
    assert_eq!(
        refusing(1, || owned.try_next().map(|_| ())),
        Err(AllocError)
    );
    assert_eq!((owned.len(), owned.next()), (0, None));
}

#[test]
fn a_loan_is_tried_again_after_an_error() {
    let mut map = map();
    let mut iter = map.iter_mut();
    assert_eq!(iter.next().map(|entry| *entry.1), Some(100));
    let left = iter.len();
    assert_eq!(refusing(1, || iter.try_next().map(|_| ())), Err(AllocError));
    assert_eq!(iter.len(), left);
    assert_eq!(iter.next().map(|entry| *entry.1), Some(101));
    assert_eq!(iter.count(), left - 1);
}

#[test]
fn a_refused_load_is_an_error() {
    let keys = ["y", "ya", "yb", "z"];
    for n in 1.. {
        let mut map = map();
        let before = map.len();
        let result = refusing(n, || map.try_sorted_load(keys.iter().map(|key| (key, 1))));
        let loaded = map.len() - before;
        assert!(keys[..loaded].iter().all(|key| map.contains_key(key)));
        match result {
            Err(error) => assert_eq!((error, map.contains_key("z")), (LoadError::Memory, false)),
            Ok(()) => {
                assert!(n > 1 && loaded == 4);
                break;
            }
        }
    }
    let call = |_: &mut Map| Map::try_from_iter(keys.iter().rev().map(|key| (key, 1)));
    at_each(call, is_memory(AllocError), 3);
    let bytes = map().tree_bytes().unwrap();
    let count = map().len();
    let call = |_: &mut Map| PatriciaSet::try_from_tree_bytes(&bytes, count);
    at_each(call, is_memory(DecodeError::Memory), 1);
}
