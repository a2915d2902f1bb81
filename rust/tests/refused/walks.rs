//! Iterators and cursors. After an error some have ended, and some try the same entry again.

use crate::in_turn;
use crate::starts::{self, Key, STARTS, Start, probes};
use patricia::AllocError;
use patricia::map::{
    Cursor, IntoIter, Iter, IterMut, IterPrefix, IterPrefixMut, Keys, Range, Values, ValuesMut,
    Within,
};
use patricia::set;
use std::fmt::Debug;

/// An iterator that met an error: the items before it, and the items and the errors after it.
#[derive(Debug)]
struct Stopped<T> {
    before: Vec<T>,
    after: Vec<Option<T>>,
    errors: usize,
}

/// Takes all items. After an error it goes on until the end, or until there were three more errors.
fn drain<T>(mut next: impl FnMut() -> Result<Option<T>, AllocError>) -> Result<Vec<T>, Stopped<T>> {
    let mut before = Vec::new();
    loop {
        match next() {
            Ok(Some(item)) => before.push(item),
            Ok(None) => return Ok(before),
            Err(AllocError) => break,
        }
    }
    let (mut after, mut errors) = (Vec::new(), 0);
    while errors < 3 {
        match next() {
            Ok(None) => break,
            Ok(item) => after.push(item),
            Err(AllocError) => errors += 1,
        }
    }
    Err(Stopped {
        before,
        after,
        errors,
    })
}

/// Asserts that an iterator has ended after an error.
fn ended<T: PartialEq + Debug>(all: &[T], result: Result<Vec<T>, Stopped<T>>) {
    match result {
        Ok(items) => assert_eq!(items, all),
        Err(stopped) => {
            assert!(all.starts_with(&stopped.before));
            assert!(stopped.after.is_empty(), "it goes on: {stopped:?}");
            assert_eq!(stopped.errors, 0, "it fails again");
        }
    }
}

/// Asserts that an iterator tries the same entry again after an error, or fails each time from the
/// first one on.
fn retried<T: PartialEq + Debug + Clone>(all: &[T], result: Result<Vec<T>, Stopped<T>>) {
    match result {
        Ok(items) => assert_eq!(items, all),
        Err(stopped) if stopped.errors == 0 => {
            let after = stopped.after.into_iter().flatten();
            let items: Vec<T> = stopped.before.into_iter().chain(after).collect();
            assert_eq!(items, all);
        }
        Err(stopped) => {
            assert_eq!(stopped.errors, 3);
            assert!(stopped.before.is_empty() && stopped.after.is_empty());
        }
    }
}

/// Takes all items of an iterator, with each request refused in turn.
fn turns<S, T: Debug>(
    make: impl Fn() -> S,
    take: impl Fn(&mut S) -> Result<Vec<T>, Stopped<T>>,
    check: impl Fn(&[T], Result<Vec<T>, Stopped<T>>),
) -> usize {
    let all = take(&mut make()).expect("nothing is refused");
    in_turn(make, take, |_, result| check(&all, result))
}

/// The starts, each with an empty key, for walks that have no key.
fn each<K: Key>() -> Vec<(Start, K)> {
    STARTS.map(|start| (start, K::of(""))).into()
}

/// The starts, each with some of its keys.
fn some<K: Key>() -> Vec<(Start, K)> {
    let with_keys = |start| {
        let keys = probes::<K>(start).into_iter().step_by(3);
        keys.map(move |key| (start, key))
    };
    STARTS.into_iter().flat_map(with_keys).collect()
}

/// Small starts with short keys, for searches by distance, which make a request for each item of
/// each key.
fn near<K: Key>() -> Vec<(Start, K)> {
    let keys = ["", "a", "éb", "aab", "cab"];
    let with_keys = |start| keys.map(|key| (start, K::of(key)));
    let starts = [Start::Empty, Start::EmptyKey, Start::Worn(90)];
    starts.into_iter().flat_map(with_keys).collect()
}

/// Makes a test of an iterator: what has to be after an error, over a map or a set, with which
/// starts and keys, and how its items are taken.
macro_rules! over {
    (
        $name:ident, $after:ident, $kind:ident, $cases:ident, |$over:ident, $key:ident| $take:expr
    ) => {
        #[test]
        fn $name() {
            fn check<K: Key>() {
                let mut requests = 0;
                for (start, $key) in $cases::<K>() {
                    requests += turns(|| starts::$kind::<K>(start), |$over| $take, $after);
                }
                assert!(requests > 0, "it makes no request");
            }
            check::<Vec<u8>>();
            check::<String>();
        }
    };
}

fn copied<K>(item: Option<(K, &u32)>) -> Option<(K, u32)> {
    item.map(|(key, value)| (key, *value))
}

fn changed<K>(item: Option<(K, &mut u32)>) -> Option<(K, u32)> {
    item.map(|(key, value)| (key, *value))
}

// calls of map::Iter
over!(iter_ends, ended, map, each, |map, _key| {
    let mut iter: Iter<K, u32> = map.iter();
    drain(|| iter.try_next().map(copied))
});

// calls of map::IterPrefix
over!(iter_prefix_ends, ended, map, some, |map, key| {
    let mut iter: IterPrefix<K, u32> = map.iter_prefix(key.as_ref());
    drain(|| iter.try_next().map(copied))
});

// calls of map::Keys
over!(keys_end, ended, map, each, |map, _key| {
    let mut iter: Keys<K, u32> = map.keys();
    drain(|| iter.try_next())
});

// calls of map::Values
over!(values_end, ended, map, each, |map, _key| {
    let mut iter: Values<u32> = map.values();
    drain(|| iter.try_next().map(|value| value.copied()))
});

// calls of map::IntoIter
over!(into_iter_ends, ended, map, each, |map, _key| {
    let mut iter: IntoIter<K, u32> = std::mem::take(map).into_iter();
    drain(|| iter.try_next())
});

// calls of map::IterMut
over!(iter_mut_retries, retried, map, each, |map, _key| {
    let mut iter: IterMut<K, u32> = map.iter_mut();
    drain(|| iter.try_next().map(changed))
});

// calls of map::IterPrefixMut
over!(iter_prefix_mut_retries, retried, map, some, |map, key| {
    let mut iter: IterPrefixMut<K, u32> = map.iter_prefix_mut(key.as_ref());
    drain(|| iter.try_next().map(changed))
});

// calls of map::ValuesMut
over!(values_mut_retry, retried, map, each, |map, _key| {
    let mut iter: ValuesMut<u32> = map.values_mut();
    drain(|| iter.try_next().map(|value| value.copied()))
});

// calls of map::Range
over!(range_ends, ended, map, some, |map, key| {
    let mut iter: Range<K, u32> = map.range::<&K, _>(&key..);
    drain(|| iter.try_next().map(copied))
});
over!(range_to_ends, ended, map, some, |map, key| {
    let mut iter: Range<K, u32> = map.range::<&K, _>(..=&key);
    drain(|| iter.try_next().map(copied))
});

// calls of map::Within
over!(within_ends, ended, map, near, |map, key| {
    let mut iter: Within<K, u32> = map.within(&key, 2);
    drain(|| iter.try_next().map(copied))
});
over!(within_lends_to_its_end, ended, map, near, |map, key| {
    let mut cursor: Within<K, u32> = map.within(&key, 2);
    drain(|| {
        cursor
            .try_advance()
            .map(|is_at| is_at.then(|| *cursor.value().unwrap()))
    })
});

// calls of map::Cursor
over!(cursor_ends, ended, map, some, |map, key| {
    let mut cursor: Cursor<K, u32> = map.cursor_from(key.as_ref());
    drain(|| {
        let is_at = cursor.try_advance();
        assert_eq!(
            is_at == Ok(true),
            cursor.key_bytes().is_some() && cursor.value().is_some()
        );
        is_at.map(|is_at| is_at.then(|| cursor.key_bytes().unwrap().to_vec()))
    })
});
over!(cursor_of_entries_ends, ended, map, some, |map, key| {
    let mut cursor: Cursor<K, u32> = map.cursor_prefix(key.as_ref());
    drain(|| cursor.try_next_entry().map(copied))
});

// calls of set::Iter
over!(elements_end, ended, set, each, |set, _key| {
    let mut iter: set::Iter<K> = set.iter();
    drain(|| iter.try_next())
});

// calls of set::IterPrefix
over!(elements_under_a_prefix_end, ended, set, some, |set, key| {
    let mut iter: set::IterPrefix<K> = set.iter_prefix(key.as_ref());
    drain(|| iter.try_next())
});

// calls of set::IntoIter
over!(owned_elements_end, ended, set, each, |set, _key| {
    let mut iter: set::IntoIter<K> = std::mem::take(set).into_iter();
    drain(|| iter.try_next())
});

// calls of set::Range
over!(elements_of_a_range_end, ended, set, some, |set, key| {
    let mut iter: set::Range<K> = set.range::<&K, _>(&key..);
    drain(|| iter.try_next())
});

// calls of set::Within
over!(near_elements_end, ended, set, near, |set, key| {
    let mut iter: set::Within<K> = set.within(&key, 2);
    drain(|| iter.try_next())
});
over!(
    near_elements_are_lent_to_the_end,
    ended,
    set,
    near,
    |set, key| {
        let mut cursor: set::Within<K> = set.within(&key, 2);
        drain(|| {
            let is_at = cursor.try_advance()?;
            Ok(is_at.then(|| cursor.key().is_some()))
        })
    }
);

/// A map that a refused iterator drops has dropped its values.
#[test]
fn into_iter_drops_what_is_left() {
    let token = std::rc::Rc::new(());
    let keys = probes::<Vec<u8>>(STARTS[3]);
    let make = || {
        let entries = keys.iter().map(|key| (key.clone(), token.clone()));
        Some(patricia::PatriciaMap::from_iter(entries))
    };
    let call = |map: &mut Option<patricia::PatriciaMap<_>>| {
        let mut iter = map.take().unwrap().into_iter();
        while let Some(entry) = iter.try_next()? {
            drop(entry);
        }
        Ok(())
    };
    in_turn(make, call, |_, result: Result<(), AllocError>| {
        assert!(result.is_err() || result.is_ok());
        assert_eq!(std::rc::Rc::strong_count(&token), 1);
    });
}
