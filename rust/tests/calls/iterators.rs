//! Iterators, cursors and ranges of maps.

use patricia::map::{IterMut, IterPrefixMut, ValuesMut};
use patricia::{PatriciaMap, StringPatriciaMap};
use std::collections::BTreeMap;
use std::fmt::Debug;
use std::iter::FusedIterator;
use std::ops::{Bound, RangeBounds};

fn entries() -> Vec<(String, u32)> {
    let long = "x".repeat(300);
    let keys = ["", "a", "ab", "abc", "b", "bé", "bè", &long, "y"];
    let mut keys: Vec<String> = keys.iter().map(|key| key.to_string()).collect();
    keys.push(format!("{long}y"));
    keys.sort();
    keys.into_iter().zip(0..).collect()
}

/// A map that was filled in another order, so that its nodes do not lie in key order.
fn map() -> StringPatriciaMap<u32> {
    let mut map = StringPatriciaMap::new();
    for (key, value) in entries().into_iter().rev() {
        map.insert(key, value);
    }
    map
}

fn keys_of(entries: &[(String, u32)]) -> Vec<&str> {
    entries.iter().map(|entry| entry.0.as_str()).collect()
}

/// An iterator gives the items that are wanted, says before each how many are left, and ends for
/// good.
fn check_exact<I, T: Debug + PartialEq>(mut iter: I, wanted: impl IntoIterator<Item = T>)
where
    I: ExactSizeIterator<Item = T> + FusedIterator,
{
    let wanted: Vec<T> = wanted.into_iter().collect();
    let mut left = wanted.len();
    for item in wanted {
        assert_eq!((iter.len(), iter.size_hint()), (left, (left, Some(left))));
        assert_eq!(iter.next(), Some(item));
        left -= 1;
    }
    for _ in 0..3 {
        assert_eq!((iter.size_hint(), iter.next()), ((0, Some(0)), None));
    }
}

/// The same of an iterator that does not know how many are left.
fn check_fused<I, T: Debug + PartialEq>(mut iter: I, wanted: impl IntoIterator<Item = T>)
where
    I: Iterator<Item = T> + FusedIterator,
{
    for item in wanted {
        assert_eq!(iter.size_hint().0, 0);
        assert_eq!(iter.next(), Some(item));
    }
    assert_eq!((iter.next(), iter.next(), iter.next()), (None, None, None));
}

#[test]
fn iterators_know_how_many_are_left() {
    let (mut map, entries) = (map(), entries());
    let lent = || entries.iter().map(|(key, value)| (key.clone(), value));
    check_exact(map.iter(), lent());
    check_exact((&map).into_iter(), lent());
    check_exact(map.keys(), entries.iter().map(|entry| entry.0.clone()));
    check_exact(map.values(), entries.iter().map(|entry| &entry.1));
    check_exact(map.clone().into_iter(), entries.clone());
    let mut values: Vec<u32> = entries.iter().map(|entry| entry.1).collect();
    check_exact(map.values_mut(), values.iter_mut());
    let mut model: BTreeMap<String, u32> = entries.iter().cloned().collect();
    let lent = model.iter_mut().map(|(key, value)| (key.clone(), value));
    check_exact(map.iter_mut(), lent);
    let lent = model.iter_mut().map(|(key, value)| (key.clone(), value));
    check_exact((&mut map).into_iter(), lent);
    let mut empty = StringPatriciaMap::<u32>::new();
    check_exact(empty.iter(), []);
    check_exact(empty.iter_mut(), []);
    check_exact(empty.values_mut(), []);
    check_exact(empty.into_iter(), []);
}

#[test]
fn iterators_over_parts_end_for_good() {
    let (mut map, entries) = (map(), entries());
    for prefix in ["", "a", "ab", "b", "bé", "x", "xxx", "z", "abcd"] {
        let under: Vec<_> = entries.iter().filter(|e| e.0.starts_with(prefix)).collect();
        let lent = || under.iter().map(|(key, value)| (key.clone(), value));
        check_fused(map.iter_prefix(prefix), lent());
        let mut values: Vec<_> = under.iter().map(|entry| entry.1).collect();
        let keys = under.iter().map(|entry| entry.0.clone());
        check_fused(map.iter_prefix_mut(prefix), keys.zip(values.iter_mut()));
    }
    let lent = |at: usize| (entries[at].0.clone(), &entries[at].1);
    check_fused(map.range("a".."b"), [lent(1), lent(2), lent(3)]);
    check_fused(map.within("ab", 1), [lent(1), lent(2), lent(3), lent(4)]);
    check_fused(map.common_prefixes("ab"), [("", &0), ("a", &1), ("ab", &2)]);
}

#[test]
fn iterators_return_results() {
    let (mut map, entries) = (map(), entries());
    let first = || Ok(Some((entries[0].0.clone(), &entries[0].1)));
    assert_eq!(map.iter().try_next(), first());
    assert_eq!(map.iter_prefix("").try_next(), first());
    assert_eq!(map.range(""..).try_next(), first());
    assert_eq!(map.within("", 0).try_next(), first());
    assert_eq!(map.keys().try_next(), Ok(Some(String::new())));
    assert_eq!(map.values().try_next(), Ok(Some(&0)));
    assert_eq!(map.iter_mut().try_next(), Ok(Some((String::new(), &mut 0))));
    assert_eq!(
        map.iter_prefix_mut("a").try_next(),
        Ok(Some(("a".to_string(), &mut 1)))
    );
    assert_eq!(map.values_mut().try_next(), Ok(Some(&mut 0)));
    assert_eq!(
        map.clone().into_iter().try_next(),
        Ok(Some((String::new(), 0)))
    );
    assert_eq!(map.iter_prefix("z").try_next(), Ok(None));
    assert_eq!(map.iter_prefix_mut("z").try_next(), Ok(None));
}

#[test]
fn loans_live_side_by_side() {
    let (mut map, entries) = (map(), entries());
    let mut iter: IterMut<'_, String, u32> = map.iter_mut();
    let mut lent: Vec<(String, &mut u32)> = iter.by_ref().take(4).collect();
    lent.extend(iter);
    for (key, value) in lent.iter_mut().rev() {
        **value += 100 + key.len() as u32;
    }
    let wanted = |(key, value): &(String, u32)| (key.clone(), value + 100 + key.len() as u32);
    assert!(
        map.iter()
            .map(|e| (e.0, *e.1))
            .eq(entries.iter().map(wanted))
    );
    let mut values: ValuesMut<'_, u32> = map.values_mut();
    let (first, second) = (values.next().unwrap(), values.next().unwrap());
    std::mem::swap(first, second);
    let mut under: IterPrefixMut<'_, String, u32> = map.iter_prefix_mut("ab");
    let (first, second) = (under.next().unwrap(), under.next().unwrap());
    assert_eq!((first.0.as_str(), second.0.as_str()), ("ab", "abc"));
    std::mem::swap(first.1, second.1);
    assert!(under.next().is_none());
    let values: Vec<u32> = map.values().take(4).copied().collect();
    assert_eq!(values, [102, 100, 106, 104]);
}

/// Loans of a part reach no other entry, wherever the nodes lie.
#[test]
fn loans_of_a_part_are_of_that_part() {
    let keys: Vec<String> = (0..2000).map(|n| format!("{}", n * 7919 % 2000)).collect();
    let mut map: StringPatriciaMap<u32> = StringPatriciaMap::new();
    keys.iter()
        .for_each(|key| assert_eq!(map.insert(key, 0), None));
    keys.iter()
        .step_by(3)
        .for_each(|key| assert!(map.remove(key).is_some()));
    for prefix in ["1", "12", "123", "9", "2000", "77", ""] {
        for (key, value) in map.iter_prefix_mut(prefix) {
            assert!(key.starts_with(prefix));
            *value += 1;
        }
    }
    for (key, value) in &map {
        let prefixes = ["1", "12", "123", "9", "2000", "77", ""];
        let times = prefixes.iter().filter(|prefix| key.starts_with(*prefix));
        assert_eq!(*value, times.count() as u32, "{key}");
    }
}

#[test]
fn iterators_outlive_the_prefix() {
    let mut map = map();
    let prefix = String::from("ab");
    let (entries, cursor) = (map.iter_prefix(&prefix), map.cursor_prefix(&prefix));
    let (mut from, between) = (map.cursor_from(&prefix), map.range(prefix.clone()..));
    let mut range = map.cursor_range(..prefix.clone());
    drop(prefix);
    assert_eq!(entries.count(), 2);
    let mut cursor = cursor;
    assert!(cursor.advance() && cursor.key() == Some("ab"));
    assert!(from.advance() && from.key() == Some("ab"));
    assert!(range.advance() && range.advance() && !range.advance());
    assert_eq!(between.count(), 8);
    let prefix = String::from("b");
    let lent = map.iter_prefix_mut(&prefix);
    drop(prefix);
    assert_eq!(
        lent.map(|entry| entry.0).collect::<Vec<_>>(),
        ["b", "bè", "bé"]
    );
}

#[test]
fn iterators_are_written_by_their_names() {
    let mut map = map();
    assert_eq!(
        format!("{:?} {:?}", map.iter(), map.keys()),
        "Iter { .. } Keys { .. }"
    );
    assert_eq!(
        format!("{:?} {:?}", map.values(), map.cursor()),
        "Values { .. } Cursor { .. }"
    );
    assert_eq!(format!("{:?}", map.values_mut()), "ValuesMut { .. }");
    assert_eq!(format!("{:?}", map.iter_mut()), "IterMut { .. }");
    assert_eq!(format!("{:?}", map.iter_prefix("a")), "IterPrefix { .. }");
    assert_eq!(
        format!("{:?}", map.iter_prefix_mut("a")),
        "IterPrefixMut { .. }"
    );
    assert_eq!(format!("{:?}", map.range("a"..)), "Range { .. }");
    assert_eq!(format!("{:?}", map.within("a", 1)), "Within { .. }");
    assert_eq!(
        format!("{:?}", map.common_prefixes("a")),
        "CommonPrefixesIter { .. }"
    );
    assert_eq!(format!("{:?}", map.into_iter()), "IntoIter { .. }");
}

#[test]
fn cursors_are_at_an_entry_or_at_none() {
    let map = StringPatriciaMap::from_iter([("", 0), ("a", 1), ("ab", 2), ("b", 3)]);
    let mut cursor = map.cursor();
    assert_eq!(
        (cursor.key(), cursor.key_bytes(), cursor.value()),
        (None, None, None)
    );
    assert!(cursor.advance());
    assert_eq!((cursor.key(), cursor.value()), (Some(""), Some(&0)));
    assert_eq!(cursor.next_entry(), Some(("a".to_string(), &1)));
    assert_eq!(
        (cursor.key(), cursor.key_bytes()),
        (Some("a"), Some(&b"a"[..]))
    );
    assert_eq!(cursor.try_next_entry(), Ok(Some(("ab".to_string(), &2))));
    assert_eq!(cursor.try_advance(), Ok(true));
    let value = cursor.value();
    assert_eq!(
        (cursor.try_advance(), cursor.try_next_entry()),
        (Ok(false), Ok(None))
    );
    assert_eq!((cursor.key(), cursor.value()), (None, None));
    drop(cursor);
    assert_eq!(value, Some(&3));
    let mut under = map.cursor_prefix("a");
    assert!(under.advance() && under.advance());
    assert_eq!((under.key(), under.value()), (Some("ab"), Some(&2)));
    assert!(!under.advance() && !under.advance());
    let mut from = map.cursor_from("aa");
    assert_eq!(from.next_entry(), Some(("ab".to_string(), &2)));
    assert_eq!(from.next_entry(), Some(("b".to_string(), &3)));
    assert_eq!((from.next_entry(), from.next_entry()), (None, None));
    assert!(!map.cursor_from("c").advance() && !map.cursor_prefix("c").advance());
}

#[test]
fn skip_passes_what_begins_with_whole_items() {
    let keys = ["a", "ab", "abc", "abd", "é1", "é2", "è", "z"];
    let map: StringPatriciaMap<usize> = keys.into_iter().zip(0..).collect();
    let behind = |key: &str, len: usize| {
        let mut cursor = map.cursor_from(key);
        assert!(cursor.advance() && cursor.key() == Some(key));
        cursor.skip(len);
        cursor.next_entry().map(|entry| entry.0)
    };
    assert_eq!(behind("ab", 1).as_deref(), Some("z"));
    assert_eq!(behind("ab", 2).as_deref(), Some("z"));
    assert_eq!(behind("abc", 3).as_deref(), Some("abd"));
    assert_eq!(behind("abc", 2).as_deref(), Some("z"));
    // two bytes are é, of which one is no whole character
    assert_eq!(behind("é1", 3).as_deref(), Some("é2"));
    assert_eq!(behind("é1", 2), None);
    assert_eq!((behind("è", 1), behind("a", 0)), (None, None));
    assert_eq!(behind("a", 100).as_deref(), Some("z"));
}

fn made<R: RangeBounds<String>>(map: &StringPatriciaMap<u32>, range: R) -> Vec<String> {
    let (start, end) = (range.start_bound(), range.end_bound());
    let mut cursor = map.cursor_range::<String, _>((start, end));
    let keys = std::iter::from_fn(|| cursor.next_entry()).map(|entry| entry.0);
    let keys: Vec<String> = keys.collect();
    let listed = map.range::<String, _>((start, end)).map(|entry| entry.0);
    assert!(listed.eq(keys.iter().cloned()));
    keys
}

#[test]
fn ranges_have_all_kinds_of_bounds() {
    let (map, entries) = (map(), entries());
    let model: BTreeMap<String, u32> = entries.iter().cloned().collect();
    let mut bounds: Vec<String> = entries.iter().map(|entry| entry.0.clone()).collect();
    bounds.extend(["aa", "abb", "bê", "zz", "\0", "xx"].map(str::to_string));
    let kinds = |key: &String| [Bound::Included(key.clone()), Bound::Excluded(key.clone())];
    let mut ends = vec![Bound::Unbounded];
    ends.extend(bounds.iter().flat_map(kinds));
    for start in &ends {
        for end in &ends {
            let range = (start.clone(), end.clone());
            let wanted = model.keys().filter(|key| range.contains(*key));
            assert_eq!(
                made(&map, range.clone()),
                wanted.cloned().collect::<Vec<_>>()
            );
        }
    }
}

#[test]
fn ranges_are_written_as_those_of_std() {
    let (map, entries) = (map(), entries());
    let keys = keys_of(&entries);
    let owned = |range: patricia::map::Range<'_, String, u32>| -> Vec<String> {
        range.map(|entry| entry.0).collect()
    };
    assert_eq!(owned(map.range("ab"..)), keys[2..]);
    assert_eq!(owned(map.range("ab".."b")), keys[2..4]);
    assert_eq!(owned(map.range("ab"..="b")), keys[2..5]);
    assert_eq!(owned(map.range(.."b")), keys[..4]);
    assert_eq!(owned(map.range(..="b")), keys[..5]);
    assert_eq!(owned(map.range::<&str, _>(..)), keys);
    assert_eq!(
        owned(map.range::<&str, _>((Bound::Excluded("ab"), Bound::Unbounded))),
        keys[3..]
    );
    // no entry is between bounds that are in the wrong order, and no call panics
    assert!(owned(map.range("b".."a")).is_empty() && owned(map.range("a".."a")).is_empty());
    assert!(owned(map.range::<&str, _>((Bound::Excluded("a"), Bound::Excluded("a")))).is_empty());
    assert_eq!(owned(map.range("a"..="a")), ["a"]);
    let bytes = PatriciaMap::from_iter([(vec![0], 1), (vec![255, 255], 2), (vec![255], 3)]);
    assert_eq!(bytes.range(vec![255]..).count(), 2);
    assert_eq!(bytes.range::<Vec<u8>, _>(..=vec![255]).count(), 2);
}

/// Behind its range a cursor is at no entry, also if the map has more.
#[test]
fn a_cursor_behind_its_range_is_at_none() {
    let map = map();
    for mut cursor in [map.cursor_range("a".."ab"), map.cursor_prefix("bé")] {
        assert!(cursor.advance() && !cursor.advance());
        assert_eq!((cursor.key(), cursor.key_bytes()), (None, None));
        assert_eq!((cursor.value(), cursor.next_entry()), (None, None));
    }
}

#[test]
fn within_is_a_cursor_too() {
    let map = StringPatriciaMap::from_iter([("prefix", 1), ("suffix", 2), ("pré", 3)]);
    let mut near = map.within("prefux", 1);
    assert_eq!((near.key(), near.value()), (None, None));
    assert!(near.advance());
    assert_eq!((near.key(), near.value()), (Some("prefix"), Some(&1)));
    assert_eq!((near.try_advance(), near.key()), (Ok(false), None));
    assert_eq!(
        map.within("pre", 1).map(|e| e.0).collect::<Vec<_>>(),
        ["pré"]
    );
    assert_eq!(map.within("", 3).map(|e| e.0).collect::<Vec<_>>(), ["pré"]);
    assert_eq!(map.within("", u32::MAX).count(), 3);
    assert_eq!(map.within("x", 0).count(), 0);
}
