//! A program for `patricia_tree` 0.10.2 compiles with the crate's name changed.
//!
//! Most of this file is generic, with the bounds of that crate and no other ones, so that it is
//! compiled rather than run. That is why it has functions that are not called.
#![allow(dead_code)]
#![allow(
    clippy::multiple_bound_locations,
    clippy::needless_lifetimes,
    clippy::type_complexity
)]

use patricia as patricia_tree;
use patricia_tree::map::{
    CommonPrefixesIter, GenericPatriciaMap, IntoIter, Iter, IterMut, Keys, Values, ValuesMut,
};
use patricia_tree::set::{self, GenericPatriciaSet};
use patricia_tree::{BorrowedBytes, Bytes};
use std::cmp::Ordering;
use std::fmt::Debug;

mod paths {
    pub use patricia::map::{PatriciaMap, StringPatriciaMap};
    pub use patricia::set::{PatriciaSet, StringPatriciaSet};
    pub type Maps<V> = (
        patricia::PatriciaMap<V>,
        patricia::StringPatriciaMap<V>,
        patricia::GenericPatriciaMap<Vec<u8>, V>,
    );
    pub type Sets = (
        patricia::PatriciaSet,
        patricia::StringPatriciaSet,
        patricia::GenericPatriciaSet<String>,
    );
}

/// The names in the root and in the modules are those of the same types.
fn names_are_of_the_same_types<V>(maps: paths::Maps<V>, sets: paths::Sets) {
    let _: (paths::PatriciaMap<V>, paths::StringPatriciaMap<V>) = (maps.0, maps.1);
    let _: GenericPatriciaMap<Vec<u8>, V> = maps.2;
    let _: (paths::PatriciaSet, paths::StringPatriciaSet) = (sets.0, sets.1);
    let _: GenericPatriciaSet<String> = sets.2;
}

/// The types are there without a bound on their parameters, except that of values.
struct Types<'a, 'b, K, V: 'a, B: ?Sized> {
    map: GenericPatriciaMap<K, V>,
    set: GenericPatriciaSet<K>,
    iter: Iter<'a, K, V>,
    iter_mut: IterMut<'a, K, V>,
    into_iter: IntoIter<K, V>,
    keys: Keys<'a, K, V>,
    values: Values<'a, V>,
    values_mut: ValuesMut<'a, V>,
    prefixes: CommonPrefixesIter<'a, 'b, B, V>,
    elements: set::Iter<'a, K>,
    into_elements: set::IntoIter<K>,
}

/// Nor does the kind of keys have to outlive the loan.
fn kinds_may_have_any_lifetime<K, V: 'static>() {
    let _: Option<Iter<'static, K, V>> = None;
    let _: Option<IterMut<'static, K, V>> = None;
    let _: Option<Keys<'static, K, V>> = None;
    let _: Option<Values<'static, V>> = None;
    let _: Option<ValuesMut<'static, V>> = None;
    let _: Option<set::Iter<'static, K>> = None;
}

/// A longer loan can be used as a shorter one, and so can a value.
fn loans_shrink<'s, 'l: 's, K, V>(
    entries: Iter<'l, K, V>,
    keys: Keys<'l, K, V>,
    values: Values<'l, V>,
    elements: set::Iter<'l, K>,
    map: GenericPatriciaMap<K, &'l str>,
) -> (
    Iter<'s, K, V>,
    Keys<'s, K, V>,
    Values<'s, V>,
    set::Iter<'s, K>,
) {
    let _: GenericPatriciaMap<K, &'s str> = map;
    (entries, keys, values, elements)
}

fn empty_map<K, V>() -> GenericPatriciaMap<K, V> {
    let mut map = GenericPatriciaMap::new();
    map.clear();
    let is_empty: (usize, bool) = (map.len(), map.is_empty());
    assert_eq!(is_empty, (0, true));
    map
}

fn default_map<K, V>() -> GenericPatriciaMap<K, V> {
    Default::default()
}

fn cloned_map<K, V: Clone>(map: &GenericPatriciaMap<K, V>) -> GenericPatriciaMap<K, V> {
    map.clone()
}

fn empty_set<T>() -> GenericPatriciaSet<T> {
    let mut set = GenericPatriciaSet::new();
    set.clear();
    let is_empty: (usize, bool) = (set.len(), set.is_empty());
    assert_eq!(is_empty, (0, true));
    set
}

fn default_set<T>() -> GenericPatriciaSet<T> {
    Default::default()
}

fn cloned_set<T>(set: &GenericPatriciaSet<T>) -> GenericPatriciaSet<T> {
    set.clone()
}

/// The calls of maps with their parameters, and no bound besides.
fn calls_of_maps<K: Bytes, V, Q: AsRef<K::Borrowed>, S: ?Sized + AsRef<K::Borrowed>>() {
    type Map<K, V> = GenericPatriciaMap<K, V>;
    let _: fn(&Map<K, V>, Q) -> bool = Map::contains_key::<Q>;
    let _: fn(&Map<K, V>, Q) -> Option<&V> = Map::get::<Q>;
    let _: fn(&mut Map<K, V>, Q) -> Option<&mut V> = Map::get_mut::<Q>;
    let _: for<'a, 'm> fn(&'m Map<K, V>, &'a S) -> Option<(&'a K::Borrowed, &'m V)> =
        Map::get_longest_common_prefix::<S>;
    let _: for<'a, 'm> fn(&'m mut Map<K, V>, &'a S) -> Option<(&'a K::Borrowed, &'m mut V)> =
        Map::get_longest_common_prefix_mut::<S>;
    let _: fn(&Map<K, V>, &S) -> usize = Map::longest_common_prefix_len::<S>;
    let _: fn(&mut Map<K, V>, Q, V) -> Option<V> = Map::insert::<Q>;
    let _: fn(&mut Map<K, V>, Q) -> Option<V> = Map::remove::<Q>;
    let _: fn(&mut Map<K, V>, Q) -> Map<K, V> = Map::split_by_prefix::<Q>;
    let _: fn(&Map<K, V>) -> Iter<'_, K, V> = Map::iter;
    let _: fn(&mut Map<K, V>) -> IterMut<'_, K, V> = Map::iter_mut;
    let _: fn(&Map<K, V>) -> Keys<'_, K, V> = Map::keys;
    let _: fn(&Map<K, V>) -> Values<'_, V> = Map::values;
    let _: fn(&mut Map<K, V>) -> ValuesMut<'_, V> = Map::values_mut;
}

fn prefixes<'a, 'b, K, V, Q>(
    map: &'a GenericPatriciaMap<K, V>,
    key: &'b Q,
) -> CommonPrefixesIter<'a, 'b, K::Borrowed, V>
where
    K: Bytes,
    Q: ?Sized + AsRef<K::Borrowed>,
{
    map.common_prefixes(key)
}

fn prefix_values<'a, 'b, K, V, Q>(
    map: &'a GenericPatriciaMap<K, V>,
    key: &'b Q,
) -> impl Iterator<Item = &'a V>
where
    K: Bytes,
    Q: ?Sized + AsRef<K::Borrowed>,
    K::Borrowed: 'b,
{
    map.common_prefix_values(key)
}

fn owned_prefix_values<K: Bytes + AsRef<K::Borrowed>, V>(
    map: &GenericPatriciaMap<K, V>,
    key: K,
) -> impl Iterator<Item = &V> {
    map.common_prefix_values_owned(key)
}

/// The iterators do not keep the prefix.
fn under_prefix<'a, K: Bytes, V>(map: &'a GenericPatriciaMap<K, V>, key: K) -> Vec<(K, &'a V)>
where
    K: AsRef<K::Borrowed>,
{
    let entries = map.iter_prefix(key.as_ref());
    drop(key);
    entries.collect()
}

fn under_prefix_mut<K: Bytes, V>(map: &mut GenericPatriciaMap<K, V>, key: K) -> Vec<(K, &mut V)>
where
    K: AsRef<K::Borrowed>,
{
    let entries = map.iter_prefix_mut(key.as_ref());
    drop(key);
    entries.collect()
}

fn elements_under<'a, 'b: 'a, T: Bytes>(
    set: &'a GenericPatriciaSet<T>,
    prefix: &'b T::Borrowed,
) -> impl 'a + Iterator<Item = T> {
    set.iter_prefix(prefix)
}

/// The calls of sets with their parameters, and no bound besides.
fn calls_of_sets<T: Bytes, U: AsRef<T::Borrowed>, S: ?Sized + AsRef<T::Borrowed>>() {
    type Set<T> = GenericPatriciaSet<T>;
    let _: fn(&Set<T>, U) -> bool = Set::contains::<U>;
    let _: for<'a, 's> fn(&'s Set<T>, &'a S) -> Option<&'a T::Borrowed> =
        Set::get_longest_common_prefix::<S>;
    let _: fn(&Set<T>, &S) -> usize = Set::longest_common_prefix_len::<S>;
    let _: fn(&mut Set<T>, U) -> bool = Set::insert::<U>;
    let _: fn(&mut Set<T>, U) -> bool = Set::remove::<U>;
    let _: fn(&mut Set<T>, U) -> Set<T> = Set::split_by_prefix::<U>;
    let _: fn(&Set<T>) -> set::Iter<'_, T> = Set::iter;
}

fn collected_map<K: Bytes, Q: AsRef<K::Borrowed>, V>(
    entries: Vec<(Q, V)>,
    more: Vec<(Q, V)>,
) -> GenericPatriciaMap<K, V> {
    let mut map: GenericPatriciaMap<K, V> = entries.into_iter().collect();
    map.extend(more);
    map
}

fn collected_set<T: Bytes, U: AsRef<T::Borrowed>>(
    elements: Vec<U>,
    more: Vec<U>,
) -> GenericPatriciaSet<T> {
    let mut set: GenericPatriciaSet<T> = elements.into_iter().collect();
    set.extend(more);
    set
}

fn iterators_of_maps<'a, K: Bytes, V: 'a>(types: Types<'a, '_, K, V, K::Borrowed>) {
    let mut types = types;
    let _: Option<(K, &'a V)> = types.iter.next();
    let _: Option<(K, &'a mut V)> = types.iter_mut.next();
    let _: Option<(K, V)> = types.into_iter.next();
    let _: Option<K> = types.keys.next();
    let _: Option<&'a V> = types.values.next();
    let _: Option<&'a mut V> = types.values_mut.next();
    let _: Option<K> = types.elements.next();
    let _: Option<K> = types.into_elements.next();
    let _: IntoIter<K, V> = types.map.into_iter();
    let _: set::IntoIter<K> = types.set.into_iter();
}

fn values_need_no_kind<'a, V>(mut values: Values<'a, V>, mut changed: ValuesMut<'a, V>) {
    let _: (Option<&'a V>, Option<&'a mut V>) = (values.next(), changed.next());
}

fn prefixes_need_no_owned_kind<'a, 'b, K: 'b + ?Sized + BorrowedBytes, V>(
    prefixes: CommonPrefixesIter<'a, 'b, K, V>,
) -> Option<(&'b K, &'a V)> {
    prefixes.last()
}

fn written(item: impl Debug) -> String {
    format!("{item:?}")
}

fn written_types<K: Bytes + Debug, V: Debug>(types: Types<'_, '_, K, V, K::Borrowed>)
where
    K::Borrowed: Debug,
{
    written(types.map);
    written(types.set);
    written(types.iter);
    written(types.iter_mut);
    written(types.into_iter);
    written(types.keys);
    written(types.values);
    written(types.values_mut);
    written(types.prefixes);
    written(types.elements);
    written(types.into_elements);
}

/// What a kind of keys promises, and all that it has to.
fn round_trip<K: Bytes>(key: &K::Borrowed) -> K {
    let lent: &K::Borrowed = BorrowedBytes::from_bytes(key.as_bytes());
    assert!(K::Borrowed::is_valid_bytes(lent.as_bytes()));
    lent.to_owned()
}

/// A kind with the calls that `patricia_tree` wants.
#[derive(PartialEq, Debug)]
#[repr(transparent)]
struct Plain([u8]);

#[derive(PartialEq, Debug)]
struct PlainKey(Vec<u8>);

impl ToOwned for Plain {
    type Owned = PlainKey;

    fn to_owned(&self) -> PlainKey {
        PlainKey(self.0.to_vec())
    }
}

impl std::borrow::Borrow<Plain> for PlainKey {
    fn borrow(&self) -> &Plain {
        Plain::from_bytes(&self.0)
    }
}

impl AsRef<Plain> for PlainKey {
    fn as_ref(&self) -> &Plain {
        Plain::from_bytes(&self.0)
    }
}

impl Bytes for PlainKey {
    type Borrowed = Plain;
}

impl BorrowedBytes for Plain {
    fn as_bytes(&self) -> &[u8] {
        &self.0
    }

    fn is_valid_bytes(_bytes: &[u8]) -> bool {
        true
    }

    fn from_bytes(bytes: &[u8]) -> &Self {
        // SAFETY: a `Plain` has the layout of a slice of bytes.
        unsafe { &*(bytes as *const [u8] as *const Plain) }
    }

    fn strip_common_prefix(&self, bytes: &[u8]) -> &Self {
        Plain::from_bytes(self.0.strip_common_prefix(bytes))
    }

    fn cmp_first_item(&self, bytes: &[u8]) -> Ordering {
        self.0.first().cmp(&bytes.first())
    }

    fn strip_n_prefix(&self, n: usize) -> &Self {
        Plain::from_bytes(&self.0[n..])
    }
}

#[test]
fn a_kind_needs_no_other_calls() {
    let key = |bytes: &[u8]| PlainKey(bytes.to_vec());
    let map: GenericPatriciaMap<PlainKey, u32> =
        collected_map(vec![(key(b"ab"), 1), (key(b"a"), 2)], vec![(key(b"b"), 3)]);
    assert_eq!(
        map.keys().collect::<Vec<_>>(),
        [key(b"a"), key(b"ab"), key(b"b")]
    );
    assert_eq!(
        under_prefix(&map, key(b"a")),
        [(key(b"a"), &2), (key(b"ab"), &1)]
    );
    assert_eq!(owned_prefix_values(&map, key(b"abc")).count(), 2);
    assert_eq!(round_trip::<PlainKey>(Plain::from_bytes(b"xy")), key(b"xy"));
    let lent = Plain::from_bytes(b"abc");
    let (rest, len) = lent.strip_common_prefix_and_len(b"abd");
    assert_eq!((rest, len), (Plain::from_bytes(b"c"), 2));
    assert!(!BorrowedBytes::is_empty(lent) && Plain::floor_boundary(b"abc") == 3);
}

#[test]
fn calls_without_bounds_work() {
    assert_eq!(
        empty_map::<(), u8>().len() + default_map::<(), u8>().len(),
        0
    );
    assert_eq!(empty_set::<()>().len() + default_set::<()>().len(), 0);
    assert!(cloned_map(&empty_map::<(), u8>()).is_empty());
    assert!(cloned_set(&empty_set::<()>()).is_empty());
    let set: GenericPatriciaSet<String> = collected_set(vec!["b", "a"], vec!["ab"]);
    assert_eq!(
        elements_under(&cloned_set(&set), "a").collect::<Vec<_>>(),
        ["a", "ab"]
    );
    let mut map: GenericPatriciaMap<String, u32> = collected_map(vec![("a", 1)], vec![("ab", 2)]);
    assert_eq!(
        prefixes(&map, "abc").collect::<Vec<_>>(),
        [("a", &1), ("ab", &2)]
    );
    assert_eq!(prefix_values(&map, "abc").collect::<Vec<_>>(), [&1, &2]);
    assert_eq!(
        under_prefix_mut(&mut map, "ab".to_string()),
        [("ab".to_string(), &mut 2)]
    );
    assert_eq!(written(&map), r#"{"a": 1, "ab": 2}"#);
}

#[test]
fn byte_strings_are_keys() {
    let key = BorrowedBytes::from_bytes(b"abc");
    let _: &[u8] = key;
    assert!(<[u8]>::is_valid_bytes(b"\xff"));
    assert_eq!(key.strip_common_prefix(b"abx"), b"c");
    assert_eq!(key.strip_common_prefix_and_len(b"abx"), (&b"c"[..], 2));
    assert_eq!(key.strip_n_prefix(1), b"bc");
    assert_eq!(key.cmp_first_item(b"b"), Ordering::Less);
    assert_eq!(key.cmp_first_item(b""), Ordering::Greater);
    assert_eq!(<[u8]>::floor_boundary(b"a\xff"), 2);
    assert!(!BorrowedBytes::is_empty(key));
    assert_eq!(round_trip::<Vec<u8>>(key), b"abc");
}

#[test]
fn texts_are_keys() {
    let key = "éa";
    assert_eq!(<str as BorrowedBytes>::from_bytes(key.as_bytes()), key);
    assert!(!<str as BorrowedBytes>::is_valid_bytes(b"\xc3"));
    // è has the first byte of é
    assert_eq!(key.strip_common_prefix("èb".as_bytes()), key);
    assert_eq!(key.strip_common_prefix_and_len("éb".as_bytes()), ("a", 2));
    assert_eq!(key.strip_n_prefix(2), "a");
    assert_eq!(key.cmp_first_item("èa".as_bytes()), Ordering::Greater);
    assert_eq!(key.cmp_first_item("éb".as_bytes()), Ordering::Equal);
    assert_eq!(str::floor_boundary(&"éé".as_bytes()[..3]), 2);
    assert!(BorrowedBytes::is_empty(""));
    assert_eq!(round_trip::<String>(key), key);
}
