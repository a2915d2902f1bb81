//! Many entries put into a map by one call.

use patricia::{AllocError, LoadError, NotInOrder, PatriciaMap, StringPatriciaMap};
use std::collections::BTreeMap;
use std::rc::Rc;

/// Numbers in an order that has no pattern, of which some come twice.
fn scattered(count: usize) -> impl Iterator<Item = usize> {
    (0..count).map(move |n| n * 7919 % (count * 2 / 3 + 1))
}

/// Of entries with one key the last one counts, and the values of the others are dropped.
#[test]
fn the_last_entry_of_a_key_counts() {
    for count in [0, 1, 2, 40, 3000] {
        let key = |n: usize| format!("{}{n}", "é".repeat(n % 5));
        let entries = scattered(count).map(|n| (key(n), Rc::new(n)));
        let entries: Vec<(String, Rc<usize>)> = entries.collect();
        let map: StringPatriciaMap<Rc<usize>> = entries.iter().cloned().collect();
        let model: BTreeMap<String, Rc<usize>> = entries.iter().cloned().collect();
        assert_eq!(map.len(), model.len());
        for (key, value) in &entries {
            let is_last = Rc::ptr_eq(value, &model[key]);
            assert_eq!(Rc::strong_count(value), if is_last { 3 } else { 1 });
            assert!(Rc::ptr_eq(&map[key], &model[key]));
        }
        let mut extended = StringPatriciaMap::new();
        extended.extend(entries.clone());
        assert_eq!(extended.try_extend(entries.clone()), Ok(()));
        assert!(map == extended);
        assert!(StringPatriciaMap::try_from_iter(entries).unwrap() == map);
        assert!(map.into_iter().eq(model));
    }
}

/// Entries that come in order, but for keys that come twice.
#[test]
fn keys_that_come_twice_may_be_side_by_side() {
    for keys in [
        ["a", "a", "b"],
        ["a", "b", "b"],
        ["", "", "a"],
        ["b", "b", "b"],
    ] {
        let model: BTreeMap<&str, usize> = keys.into_iter().zip(0..).collect();
        let map: StringPatriciaMap<usize> = keys.into_iter().zip(0..).collect();
        let wanted = model.iter().map(|(key, value)| (key.to_string(), value));
        assert!(map.iter().eq(wanted));
        let read = StringPatriciaMap::try_from_iter(keys.into_iter().zip(0..));
        assert!(read == Ok(map));
    }
}

/// Keys that differ in the first bytes, behind the first eight, or in their length alone.
#[test]
fn entries_in_any_order_are_put_in_key_order() {
    let mut keys: Vec<Vec<u8>> = Vec::new();
    for front in [
        &b""[..],
        b"1234567",
        b"12345678",
        b"\0\0\0\0\0\0\0\0",
        &[255; 8],
    ] {
        for tail in [
            &b""[..],
            b"\0",
            b"\0\0",
            b"a",
            b"\x01",
            b"\x01\0",
            b"\x80",
            b"\xff",
        ] {
            keys.push([front, tail].concat());
            keys.push([tail, front].concat());
        }
    }
    for shift in 0..keys.len() {
        keys.rotate_left(shift);
        let map: PatriciaMap<usize> = keys.iter().zip(0..).collect();
        let model: BTreeMap<Vec<u8>, usize> = keys.iter().cloned().zip(0..).collect();
        assert!(map.iter().map(|(key, value)| (key, *value)).eq(model));
    }
}

#[test]
fn arrays_are_collected() {
    let map = StringPatriciaMap::from([("b", 1), ("a", 2), ("b", 3)]);
    assert_eq!(
        map.into_iter().collect::<Vec<_>>(),
        [("a".into(), 2), ("b".into(), 3)]
    );
    let empty: [(&str, u32); 0] = [];
    assert!(StringPatriciaMap::from(empty).is_empty());
    let map: PatriciaMap<u32> = PatriciaMap::from([([1, 2], 1), ([0, 255], 2)]);
    assert_eq!(map.values().collect::<Vec<_>>(), [&2, &1]);
}

/// An iterator whose hint is wrong is read to its end.
#[test]
fn wrong_hints_do_no_harm() {
    struct Wrong(u32, usize);
    impl Iterator for Wrong {
        type Item = (String, u32);
        fn next(&mut self) -> Option<Self::Item> {
            self.0 = self.0.checked_sub(1)?;
            Some((self.0.to_string(), self.0))
        }
        fn size_hint(&self) -> (usize, Option<usize>) {
            (self.1, Some(self.1))
        }
    }
    for hint in [0, 3, 1000] {
        let map: StringPatriciaMap<u32> = Wrong(100, hint).collect();
        assert_eq!(map.len(), 100);
        let mut map = StringPatriciaMap::from([("x", 0)]);
        map.extend(Wrong(100, hint));
        assert_eq!(map.len(), 101);
    }
    // room for so many entries cannot be had
    let refused = StringPatriciaMap::try_from_iter(Wrong(100, usize::MAX));
    assert_eq!(refused.map(|map| map.len()), Err(AllocError));
    let mut map = StringPatriciaMap::from([("", 0)]);
    let refused = map.try_sorted_load(Wrong(100, usize::MAX));
    assert_eq!((refused, map.len()), (Err(LoadError::Memory), 1));
}

#[test]
fn sorted_entries_are_loaded() {
    let entries = [("", 0), ("a", 1), ("ab", 2), ("b", 3)];
    let mut map = StringPatriciaMap::from_sorted_iter(entries).unwrap();
    assert!(map == StringPatriciaMap::from(entries));
    assert_eq!(map.sorted_load([("ba", 4), ("c", 5)]), Ok(()));
    assert_eq!(map.try_sorted_load([("é", 6)]), Ok(()));
    assert_eq!(
        map.values().copied().collect::<Vec<_>>(),
        [0, 1, 2, 3, 4, 5, 6]
    );
    let none: [(&str, u32); 0] = [];
    assert_eq!((map.sorted_load(none), map.len()), (Ok(()), 7));
    let map = StringPatriciaMap::try_from_sorted_iter([("a", 1), ("b", 2)]);
    assert_eq!(map.map(|map| map.len()), Ok(2));
}

/// What comes before the first key that is not in order is in the map, and nothing else.
#[test]
fn entries_before_one_out_of_order_are_loaded() {
    for wrong in ["", "a", "ab", "b", "c"] {
        let mut map = StringPatriciaMap::from([("a", 1), ("ab", 2)]);
        let entries = [("b", 3), ("c", 4), (wrong, 5), ("d", 6)];
        assert_eq!(map.sorted_load(entries), Err(NotInOrder));
        let keys: Vec<String> = map.keys().collect();
        assert_eq!(keys, ["a", "ab", "b", "c"]);
        assert_eq!(map.values().copied().collect::<Vec<_>>(), [1, 2, 3, 4]);
        let refused = map.try_sorted_load([(wrong, 5)]);
        assert_eq!((refused, map.len()), (Err(LoadError::NotInOrder), 4));
    }
    let unordered = StringPatriciaMap::from_sorted_iter([("b", 1), ("a", 2)]);
    assert_eq!(unordered.map(|map| map.len()), Err(NotInOrder));
    let twice = StringPatriciaMap::try_from_sorted_iter([("a", 1), ("a", 2)]);
    assert_eq!(twice.map(|map| map.len()), Err(LoadError::NotInOrder));
    assert_eq!(NotInOrder.to_string(), LoadError::NotInOrder.to_string());
}

#[test]
fn append_moves_all_entries_of_the_other_map() {
    let mut map = StringPatriciaMap::from([("a", 1), ("b", 2), ("", 0)]);
    let mut other = StringPatriciaMap::from([("b", 3), ("c", 4), ("ab", 5)]);
    map.append(&mut other);
    assert_eq!((map.len(), other.len()), (5, 0));
    assert_eq!(map.values().copied().collect::<Vec<_>>(), [0, 1, 5, 3, 4]);
    assert_eq!((map.try_append(&mut other), map.len()), (Ok(()), 5));
    assert_eq!(
        (other.try_append(&mut map), map.len(), other.len()),
        (Ok(()), 0, 5)
    );
}

#[test]
fn merge_with_asks_at_the_keys_that_both_have() {
    let mut map = StringPatriciaMap::from([("", 1), ("b", 2), ("c", 3)]);
    let other = StringPatriciaMap::from([("", 10), ("a", 20), ("c", 30)]);
    let mut asked = Vec::new();
    map.merge_with(other.clone(), |old, new| {
        asked.push((*old, new));
        *old += new;
    });
    assert_eq!(asked, [(1, 10), (3, 30)]);
    assert_eq!(map.values().copied().collect::<Vec<_>>(), [11, 20, 2, 33]);
    assert_eq!(map.try_merge_with(other, |_, _| {}), Ok(()));
    assert_eq!(map.values().copied().collect::<Vec<_>>(), [11, 20, 2, 33]);
    map.merge_with(StringPatriciaMap::new(), |_, _| unreachable!());
    assert_eq!(map.len(), 4);
}
