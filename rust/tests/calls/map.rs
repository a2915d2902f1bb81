//! Maps: looking keys up, and changing entries.

use patricia::{GenericPatriciaMap, PatriciaMap, StringPatriciaMap};
use std::collections::BTreeMap;
use std::rc::Rc;

/// Keys at the borders of what a label holds, in order.
fn border_keys() -> Vec<Vec<u8>> {
    let mut keys: Vec<Vec<u8>> = vec![vec![], vec![0], vec![0, 0], vec![0, 255], vec![255]];
    for n in [254, 255, 256, 300, 510, 511, 70_000] {
        keys.extend([vec![b'a'; n], [vec![b'a'; n], vec![b'b']].concat()]);
        keys.push(vec![255; n]);
    }
    keys.sort();
    keys
}

#[test]
fn a_new_map_is_empty() {
    let mut map = PatriciaMap::<u32>::new();
    assert_eq!((map.len(), map.is_empty()), (0, true));
    assert_eq!((map.remove(""), map.pop_first()), (None, None));
    assert_eq!(map.get(""), None);
    assert_eq!((map.iter().next(), map.first_key_value()), (None, None));
    assert!(map.split_by_prefix("").is_empty() && map.split_by_prefix("a").is_empty());
    assert_eq!(
        (map.longest_common_prefix_len("a"), map.count_prefix("")),
        (0, 0)
    );
}

#[test]
fn insert_and_remove_return_the_value_that_was_there() {
    let mut map = PatriciaMap::new();
    assert_eq!(map.insert("foo", 1), None);
    assert_eq!(map.insert("bar", 2), None);
    assert_eq!(map.try_insert("baz", 3), Ok(None));
    assert_eq!(map.insert("foo", 4), Some(1));
    assert_eq!(map.try_insert(b"foo", 5), Ok(Some(4)));
    assert_eq!((map.len(), map.is_empty()), (3, false));
    assert_eq!(
        (map.get("foo"), map.get("bar"), map.get("ba")),
        (Some(&5), Some(&2), None)
    );
    assert!(map.contains_key(b"baz") && map.contains_key(vec![98, 97, 114]));
    assert!(!map.contains_key("ba") && !map.contains_key("bazz") && !map.contains_key(""));
    *map.get_mut("bar").unwrap() += 10;
    assert_eq!(map.get_mut("b"), None);
    assert_eq!((map.remove("bar"), map.remove("bar")), (Some(12), None));
    assert_eq!(
        (map.try_remove("baz"), map.try_remove("ba")),
        (Ok(Some(3)), Ok(None))
    );
    assert_eq!(map.len(), 1);
    map.clear();
    assert_eq!((map.len(), map.get("foo")), (0, None));
    map.insert("a", 1);
    assert_eq!(map.iter().collect::<Vec<_>>(), [(b"a".to_vec(), &1)]);
}

#[test]
fn keys_at_the_borders_are_found_and_removed() {
    let keys = border_keys();
    let mut map = PatriciaMap::new();
    for (at, key) in keys.iter().enumerate().rev() {
        assert_eq!(map.insert(key, at), None);
    }
    assert!(map.keys().eq(keys.iter().cloned()));
    for (at, key) in keys.iter().enumerate() {
        assert_eq!(map.get(key), Some(&at));
        let longer = [key.as_slice(), b"!"].concat();
        assert_eq!(map.get(&longer), None);
        let longest = map.get_longest_common_prefix(&longer);
        assert_eq!(longest, Some((key.as_slice(), &at)));
        let prefixes = keys.iter().filter(|prefix| key.starts_with(prefix));
        assert!(map.common_prefixes(key).map(|entry| entry.0).eq(prefixes));
        assert_eq!(
            map.first_after(key).map(|entry| *entry.1),
            keys.get(at + 1).map(|_| at + 1)
        );
        assert_eq!(
            map.last_before(key).map(|entry| *entry.1),
            at.checked_sub(1)
        );
        let mut part = map.clone();
        let taken = part.split_by_prefix(key);
        let under = keys.iter().filter(|other| other.starts_with(key));
        assert!(taken.keys().eq(under.cloned()));
        assert_eq!((taken.get(key), part.get(key)), (Some(&at), None));
        assert_eq!(taken.len() + part.len(), map.len());
    }
    for (at, key) in keys.iter().enumerate() {
        assert_eq!((map.remove(key), map.get(key)), (Some(at), None));
        assert!(map.keys().eq(keys[at + 1..].iter().cloned()));
    }
}

#[test]
fn texts_are_cut_between_characters() {
    let texts = ["è", "é", "ê", "あ", "い", "😀", "😁"];
    let map: StringPatriciaMap<usize> = texts.into_iter().zip(0..).collect();
    assert!(map.keys().eq(texts));
    for (at, text) in texts.into_iter().enumerate() {
        assert_eq!(map.get(text), Some(&at));
        assert_eq!(
            map.longest_common_prefix_len(&format!("{text}a")),
            text.len()
        );
        assert_eq!(map.iter_prefix(text).count(), 1);
    }
    assert_eq!(map.longest_common_prefix_len("ë"), 0);
    assert_eq!(map.longest_common_prefix_len("う"), 0);
    assert_eq!(map.longest_common_prefix_len("😂"), 0);
    assert_eq!(map.within("う", 1).count(), 7);
    let bytes: PatriciaMap<usize> = texts.into_iter().zip(0..).collect();
    assert_eq!(bytes.longest_common_prefix_len("ë"), 1);
    assert_eq!(bytes.longest_common_prefix_len("う"), 2);
    assert_eq!(bytes.longest_common_prefix_len("😂"), 3);
    assert_eq!(bytes.count_prefix(b"\xf0\x9f"), 2);
    assert_eq!(bytes.within("う", 1).count(), 2);
}

#[test]
fn longest_common_prefix_is_an_entry() {
    let mut map = PatriciaMap::from_iter([("foo", 1), ("foobar", 2)]);
    assert_eq!(map.get_longest_common_prefix("fo"), None);
    assert_eq!(
        map.get_longest_common_prefix("foo"),
        Some((&b"foo"[..], &1))
    );
    assert_eq!(
        map.get_longest_common_prefix("fooba"),
        Some((&b"foo"[..], &1))
    );
    assert_eq!(
        map.get_longest_common_prefix("foobarbaz"),
        Some((&b"foobar"[..], &2))
    );
    let (key, value) = map.get_longest_common_prefix_mut("foobarbaz").unwrap();
    assert_eq!(key, b"foobar");
    *value = 5;
    assert_eq!(map.get_longest_common_prefix_mut("f"), None);
    assert_eq!(map.get("foobar"), Some(&5));
    assert_eq!(map.longest_common_prefix_len("foof"), 3);
    map.insert("", 7);
    assert_eq!(map.get_longest_common_prefix("x"), Some((&b""[..], &7)));
    *map.get_longest_common_prefix_mut("x").unwrap().1 += 1;
    assert_eq!(map.get(""), Some(&8));
}

/// The key that is returned is a part of the one that was given, and lives as long.
#[test]
fn common_prefixes_are_parts_of_the_key() {
    let map = StringPatriciaMap::from_iter([("", 0), ("foo", 1), ("foobar", 2), ("foobaz", 3)]);
    let key = String::from("foobarbaz");
    let (longest, many) = {
        let map = map.clone();
        (
            map.get_longest_common_prefix(&key).unwrap().0,
            map.common_prefixes(&key).count(),
        )
    };
    assert_eq!((longest, many), ("foobar", 3));
    let entries: Vec<_> = map.common_prefixes(&key).collect();
    assert_eq!(entries, [("", &0), ("foo", &1), ("foobar", &2)]);
    let values: Vec<_> = map.common_prefix_values("foobaz").collect();
    assert_eq!(values, [&0, &1, &3]);
    let values = map.common_prefix_values_owned("fooz".to_string());
    assert_eq!(values.collect::<Vec<_>>(), [&0, &1]);
    let mut none = StringPatriciaMap::from_iter([("a", 1)]);
    assert_eq!(none.common_prefixes("").next(), None);
    none.clear();
    assert_eq!(none.common_prefix_values("a").next(), None);
}

#[test]
fn split_by_prefix_takes_the_part() {
    let entries = [("rust", 1), ("ruby", 2), ("bash", 3), ("erlang", 4)];
    let mut map = StringPatriciaMap::from_iter(entries);
    let mut part = map.split_by_prefix("ru");
    assert_eq!(part.keys().collect::<Vec<_>>(), ["ruby", "rust"]);
    assert_eq!(map.keys().collect::<Vec<_>>(), ["bash", "erlang"]);
    part.insert("x", 9);
    map.insert("y", 8);
    assert_eq!((part.get("rust"), part.get("ruby")), (Some(&1), Some(&2)));
    assert_eq!(
        (part.get("x"), map.get("x"), map.get("y")),
        (Some(&9), None, Some(&8))
    );
    assert!(map.try_split_by_prefix("z").unwrap().is_empty());
    assert_eq!(map.try_split_by_prefix("").unwrap().len(), 3);
    assert!(map.is_empty());
}

#[test]
fn values_are_changed_in_place() {
    let mut map = StringPatriciaMap::from_iter([("a", 1), ("ab", 2)]);
    assert_eq!(
        map.update("a", |value| std::mem::replace(value, 5)),
        Some(1)
    );
    assert_eq!(map.update("b", |_| unreachable!()), None::<()>);
    assert!(map.insert_with("b", || 3) && !map.insert_with("b", || unreachable!()));
    assert_eq!(
        (map.try_insert_with("", || 0), map.try_insert_with("", || 1)),
        (Ok(true), Ok(false))
    );
    *map.get_or_insert_with("a", || unreachable!()) += 1;
    *map.get_or_insert_with("c", || 10) += 1;
    *map.try_get_or_insert_with("c", || unreachable!()).unwrap() += 1;
    let entries = [("", 0), ("a", 6), ("ab", 2), ("b", 3), ("c", 12)];
    assert!(
        map.iter()
            .eq(entries.iter().map(|(key, value)| (key.to_string(), value)))
    );
}

#[test]
fn prefixes_are_counted_and_removed() {
    let mut map = StringPatriciaMap::from_iter([("a", 1), ("ab", 2), ("abc", 3), ("é", 4)]);
    assert_eq!(
        (map.count_prefix("ab"), map.try_count_prefix("")),
        (2, Ok(4))
    );
    assert_eq!((map.count_prefix("x"), map.count_prefix("abcd")), (0, 0));
    assert_eq!((map.remove_prefix("ab"), map.remove_prefix("ab")), (2, 0));
    assert_eq!((map.try_remove_prefix("é"), map.len()), (Ok(1), 1));
    assert_eq!((map.remove_prefix(""), map.len()), (1, 0));
}

#[test]
fn retain_asks_in_key_order() {
    let entries = [("", 0), ("b", 2), ("a", 1), ("ab", 3), ("c", 4)];
    let mut map = StringPatriciaMap::from_iter(entries);
    let mut asked = Vec::new();
    map.retain(|key, value| {
        asked.push(key.to_string());
        *value += 10;
        *value % 2 == 0
    });
    assert_eq!(asked, ["", "a", "ab", "b", "c"]);
    assert!(map.iter().map(|(key, value)| (key, *value)).eq([
        (String::new(), 10),
        ("b".to_string(), 12),
        ("c".to_string(), 14),
    ]));
    assert_eq!(map.try_retain(|key, _| key == "b"), Ok(()));
    assert_eq!((map.len(), map.get("b")), (1, Some(&12)));
    map.retain(|_, _| false);
    assert!(map.is_empty());
    map.retain(|_, _| unreachable!());
}

#[test]
fn visits_are_in_key_order() {
    let map = StringPatriciaMap::from_iter([("b", 2), ("a", 1), ("ab", 3), ("", 0)]);
    let mut visited = Vec::new();
    map.for_each(|key, value| visited.push((key.to_string(), *value)));
    assert!(
        map.iter()
            .map(|(key, value)| (key, *value))
            .eq(visited.clone())
    );
    let mut again = Vec::new();
    let push = |key: &str, value: &u32| again.push((key.to_string(), *value));
    assert_eq!(map.try_for_each(push), Ok(()));
    assert_eq!(again, visited);
    let mut under = 0;
    map.for_each_prefix("a", |_, value| under += value);
    assert_eq!(
        map.try_for_each_prefix("ab", |_, value| under += 10 * value),
        Ok(())
    );
    map.for_each_prefix("x", |_, _| unreachable!());
    assert_eq!(under, 34);
}

#[test]
fn ends_and_neighbours_are_those_of_std() {
    let keys = ["", "a", "ab", "b", "é", "😀"];
    let mut map: StringPatriciaMap<usize> = keys.into_iter().zip(0..).collect();
    let mut model: BTreeMap<String, usize> = map.clone().into_iter().collect();
    let owned = |entry: Option<(&String, &usize)>| entry.map(|(key, value)| (key.clone(), *value));
    let made = |entry: Option<(String, &usize)>| entry.map(|(key, value)| (key, *value));
    for key in ["", "a", "aa", "ab", "abc", "c", "è", "é", "😁", "\u{0}"] {
        let before = owned(model.range(..key.to_string()).next_back());
        assert_eq!(made(map.last_before(key)), before);
        assert_eq!(made(map.try_last_before(key).unwrap()), before);
        let after = model.iter().find(|entry| entry.0.as_str() > key);
        assert_eq!(made(map.first_after(key)), owned(after));
        assert_eq!(made(map.try_first_after(key).unwrap()), owned(after));
    }
    while !model.is_empty() {
        assert_eq!(made(map.first_key_value()), owned(model.first_key_value()));
        assert_eq!(map.try_first_key_value(), Ok(map.first_key_value()));
        assert_eq!(made(map.last_key_value()), owned(model.last_key_value()));
        assert_eq!(map.try_last_key_value(), Ok(map.last_key_value()));
        assert_eq!(map.pop_first(), model.pop_first());
        assert_eq!(map.try_pop_last(), Ok(model.pop_last()));
    }
    map.extend([("a", 1), ("b", 2)]);
    assert_eq!(map.try_pop_first(), Ok(Some(("a".to_string(), 1))));
    assert_eq!(
        (map.pop_last(), map.pop_last()),
        (Some(("b".to_string(), 2)), None)
    );
}

#[test]
fn many_keys_are_looked_up() {
    for count in [0, 1, 63, 64, 65, 128, 200] {
        let keys: Vec<String> = (0..count).map(|n| format!("{n}/é")).collect();
        let entries = (0..count)
            .filter(|n| n % 3 != 1)
            .map(|n| (n.to_string(), n));
        let mut map: StringPatriciaMap<usize> = entries.collect();
        map.insert("0/é", 1000);
        let wanted: Vec<_> = keys.iter().map(|key| map.get(key)).collect();
        assert_eq!(map.get_many(&keys), wanted);
        assert_eq!(map.try_get_many(&keys), Ok(wanted.clone()));
        let is_there: Vec<bool> = wanted.iter().map(Option::is_some).collect();
        assert_eq!(map.contains_many(&keys), is_there);
        assert_eq!(map.try_contains_many(&keys), Ok(is_there));
        let longest = keys.iter().map(|key| map.get_longest_common_prefix(key));
        let longest: Vec<_> = longest.collect();
        assert_eq!(map.longest_many(&keys), longest);
        assert_eq!(map.try_longest_many(&keys), Ok(longest));
    }
}

/// As many keys are looked up as both lists have room for, and no more answers are written.
#[test]
fn many_keys_are_looked_up_into_slices() {
    let keys: Vec<String> = (0..150).map(|n| format!("{n}")).collect();
    let map: StringPatriciaMap<usize> = keys.iter().zip(0..).collect();
    for (asked, room) in [
        (150, 100),
        (100, 150),
        (65, 64),
        (64, 65),
        (0, 5),
        (5, 0),
        (150, 150),
    ] {
        let n = room.min(asked);
        let mut values = vec![Some(&7); room];
        assert_eq!(map.get_many_into(&keys[..asked], &mut values), n);
        let wanted = (0..room).map(|at| if at < n { map.get(&keys[at]) } else { Some(&7) });
        assert!(values.into_iter().eq(wanted));
        let mut found = vec![false; room];
        assert_eq!(map.contains_many_into(&keys[..asked], &mut found), n);
        assert!(found.into_iter().eq((0..room).map(|at| at < n)));
        let mut longest = vec![None; room];
        assert_eq!(map.longest_many_into(&keys[..asked], &mut longest), n);
        for (at, entry) in longest.into_iter().enumerate() {
            let wanted = if at < n {
                Some(keys[at].as_str())
            } else {
                None
            };
            assert_eq!(entry.map(|entry| entry.0), wanted);
        }
    }
}

#[test]
fn values_are_dropped_once() {
    let value = Rc::new(());
    let mut map = PatriciaMap::new();
    for n in 0..100_u8 {
        map.insert([n, n], value.clone());
    }
    map.insert([0, 0], value.clone());
    map.remove([1, 1]);
    assert_eq!(Rc::strong_count(&value), 100);
    let part = map.split_by_prefix([2]);
    assert_eq!((part.len(), Rc::strong_count(&value)), (1, 100));
    drop(part);
    assert_eq!((map.remove_prefix([3]), Rc::strong_count(&value)), (1, 98));
    let copy = map.clone();
    assert_eq!(Rc::strong_count(&value), 195);
    let mut owned = copy.into_iter();
    assert!(owned.next().is_some() && map.pop_first().is_some());
    drop(owned);
    assert_eq!(Rc::strong_count(&value), 97);
    map.values_mut().for_each(|value| *value = Rc::new(()));
    assert_eq!(Rc::strong_count(&value), 1);
}

/// Maps of values that take no room, and of large ones.
#[test]
fn values_have_any_size() {
    let mut empty: GenericPatriciaMap<String, ()> = (0..500).map(|n| (n.to_string(), ())).collect();
    assert_eq!((empty.len(), empty.insert("7", ())), (500, Some(())));
    assert_eq!(empty.values_mut().count(), 500);
    let mut large: StringPatriciaMap<[u64; 40]> = StringPatriciaMap::new();
    for n in 0..500 {
        large.insert(n.to_string(), [n; 40]);
    }
    assert!((0..500).all(|n| large.remove(n.to_string()) == Some([n; 40])));
}
