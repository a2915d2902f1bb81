//! Threads: what can be sent to them, and maps that several of them read.

use patricia::map::{self, CommonPrefixesIter};
use patricia::set::{self, GenericPatriciaSet};
use patricia::{AllocError, DecodeError, GenericPatriciaMap, LoadError, NotInOrder, Refused};
use patricia::{PatriciaMap, StringPatriciaMap, StringPatriciaSet, TooDeep, WireError};
use std::cell::Cell;
use std::panic::{RefUnwindSafe, UnwindSafe};
use std::sync::Arc;
use std::thread;

fn can_be_sent<T: Send>() {}
fn can_be_shared<T: Sync>() {}
fn can_be_moved<T: Unpin>() {}
fn can_be_caught<T: UnwindSafe + RefUnwindSafe>() {}

fn has_all<T: Send + Sync + Unpin + UnwindSafe + RefUnwindSafe>() {}

/// What holds of any values of a kind holds of the types that have or lend them.
fn types_are_as_their_values<'a, K, V>()
where
    K: patricia::Bytes<Borrowed = str> + Send + Sync + Unpin + UnwindSafe + RefUnwindSafe,
    V: 'a + Send + Sync + Unpin + UnwindSafe + RefUnwindSafe,
{
    has_all::<GenericPatriciaMap<K, V>>();
    has_all::<GenericPatriciaSet<K>>();
    has_all::<map::Iter<'a, K, V>>();
    has_all::<map::IterPrefix<'a, K, V>>();
    has_all::<map::Keys<'a, K, V>>();
    has_all::<map::Values<'a, V>>();
    has_all::<map::IntoIter<K, V>>();
    has_all::<map::Cursor<'a, K, V>>();
    has_all::<map::Range<'a, K, V>>();
    has_all::<map::Within<'a, 'a, K, V>>();
    has_all::<CommonPrefixesIter<'a, 'a, str, V>>();
    has_all::<set::Iter<'a, K>>();
    has_all::<set::IterPrefix<'a, K>>();
    has_all::<set::IntoIter<K>>();
    has_all::<set::Range<'a, K>>();
    has_all::<set::Within<'a, 'a, K>>();
}

/// A mutable loan is not `UnwindSafe`, as those of std's maps.
fn mutable_loans_are_as_their_values<'a, K, V>()
where
    K: patricia::Bytes + Send + Sync + Unpin,
    V: 'a + Send + Sync + Unpin,
{
    can_be_sent::<map::IterMut<'a, K, V>>();
    can_be_sent::<map::IterPrefixMut<'a, K, V>>();
    can_be_sent::<map::ValuesMut<'a, V>>();
    can_be_shared::<map::IterMut<'a, K, V>>();
    can_be_shared::<map::IterPrefixMut<'a, K, V>>();
    can_be_shared::<map::ValuesMut<'a, V>>();
    can_be_moved::<map::IterMut<'a, K, V>>();
    can_be_moved::<map::IterPrefixMut<'a, K, V>>();
    can_be_moved::<map::ValuesMut<'a, V>>();
}

#[test]
fn types_have_the_traits_of_threads() {
    types_are_as_their_values::<String, u32>();
    mutable_loans_are_as_their_values::<Vec<u8>, String>();
    has_all::<(AllocError, DecodeError, LoadError, NotInOrder)>();
    has_all::<(Refused<u32>, TooDeep, WireError)>();
    // values that cannot be shared can be sent with their map
    can_be_sent::<PatriciaMap<Cell<u32>>>();
    can_be_moved::<PatriciaMap<Cell<u32>>>();
    can_be_caught::<StringPatriciaSet>();
}

fn entries() -> Vec<(String, u32)> {
    (0..3000)
        .map(|n| (format!("{:05}{}", n * 7, "é".repeat(n % 3)), n as u32))
        .collect()
}

/// Asks each of the calls that read.
fn read(map: &StringPatriciaMap<u32>, entries: &[(String, u32)]) {
    assert_eq!(map.len(), entries.len());
    for (at, (key, value)) in entries.iter().enumerate() {
        let longer = format!("{key}x");
        assert_eq!((map.get(key), map.get(&longer)), (Some(value), None));
        let longest = map.get_longest_common_prefix(&longer);
        assert_eq!(longest, Some((key.as_str(), value)));
        assert_eq!(map.longest_common_prefix_len(&longer), key.len());
        assert!(map.common_prefixes(&longer).eq([(key.as_str(), value)]));
        let entry = |at: usize| entries.get(at).map(|e| (e.0.clone(), &e.1));
        assert_eq!(map.first_after(key), entry(at + 1));
        assert_eq!(map.last_before(key), entry(at.wrapping_sub(1)));
    }
    let keys: Vec<&String> = entries.iter().map(|entry| &entry.0).collect();
    assert!(map.get_many(&keys).iter().all(Option::is_some));
    assert!(map.iter().eq(entries.iter().map(|e| (e.0.clone(), &e.1))));
    assert!(map.values().eq(entries.iter().map(|e| &e.1)));
    let under = entries.iter().filter(|e| e.0.starts_with("01"));
    let wanted: Vec<&str> = under.map(|e| e.0.as_str()).collect();
    assert!(
        map.iter_prefix("01")
            .map(|e| e.0)
            .eq(wanted.iter().copied())
    );
    assert_eq!(map.count_prefix("01"), wanted.len());
    let mut cursor = map.cursor_from("00021");
    assert!(cursor.advance() && cursor.key() == Some("00021"));
    assert_eq!(map.within("00021", 0).count(), 1);
}

#[test]
fn threads_read_a_map_that_they_share() {
    let wanted = Arc::new(entries());
    let map: Arc<StringPatriciaMap<u32>> = Arc::new(wanted.iter().cloned().collect());
    let bytes = map.tree_bytes();
    let readers: Vec<_> = (0..4)
        .map(|_| {
            let (map, wanted) = (map.clone(), wanted.clone());
            thread::spawn(move || read(&map, &wanted))
        })
        .collect();
    read(&map, &wanted);
    readers
        .into_iter()
        .for_each(|reader| reader.join().unwrap());
    assert_eq!(map.tree_bytes(), bytes);
    let map = Arc::into_inner(map).unwrap();
    assert!(map.into_iter().eq(wanted.iter().cloned()));
}

#[test]
fn scoped_threads_read_a_map_that_is_lent() {
    let wanted = entries();
    let map: StringPatriciaMap<u32> = wanted.iter().cloned().collect();
    thread::scope(|scope| {
        for _ in 0..4 {
            scope.spawn(|| read(&map, &wanted));
        }
    });
    let mut entries = map.iter();
    entries.next();
    let left = thread::scope(|scope| scope.spawn(|| entries.count()).join().unwrap());
    assert_eq!(left, wanted.len() - 1);
}

#[test]
fn threads_change_values_that_are_lent_side_by_side() {
    let mut map: StringPatriciaMap<u32> = entries().into_iter().collect();
    let mut lent: Vec<&mut u32> = map.values_mut().collect();
    thread::scope(|scope| {
        for part in lent.chunks_mut(500) {
            scope.spawn(move || part.iter_mut().for_each(|value| **value += 1));
        }
    });
    assert!(map.values().copied().eq(1..=3000));
    let mut iter = map.iter_mut();
    thread::scope(|scope| {
        scope.spawn(move || iter.by_ref().for_each(|(_, value)| *value += 1));
    });
    assert!(map.values().copied().eq(2..=3001));
}

#[test]
fn a_map_is_changed_by_the_thread_that_has_it() {
    let map: StringPatriciaMap<String> = StringPatriciaMap::from([("a", "one".to_string())]);
    let changed = thread::spawn(move || {
        let mut map = map;
        map.insert("b", "two".to_string());
        map
    });
    let mut map = changed.join().unwrap();
    assert_eq!(map.remove("b").as_deref(), Some("two"));
    let set = StringPatriciaSet::from(["a", "ab"]);
    let elements = thread::spawn(move || set.into_iter().collect::<Vec<_>>());
    assert_eq!(elements.join().unwrap(), ["a", "ab"]);
}
