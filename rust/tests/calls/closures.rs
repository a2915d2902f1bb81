//! How often a call runs its closure, at what and in which order.

use patricia::StringPatriciaMap;
use std::cell::Cell;

#[test]
fn merge_with_asks_at_shared_keys() {
    let mut map = StringPatriciaMap::from([("a", 1), ("ab", 2), ("c", 3), ("d", 4)]);
    let other = StringPatriciaMap::from([("d", 9), ("b", 8), ("ab", 7), ("a", 6), ("e", 5)]);
    let mut asked = Vec::new();
    map.merge_with(other, |value, new| {
        asked.push((*value, new));
        *value = new;
    });
    assert_eq!(asked, [(1, 6), (2, 7), (4, 9)]);
    assert_eq!(
        (map.len(), map.get("a"), map.get("d")),
        (6, Some(&6), Some(&9))
    );
}

/// The closure that makes a value runs once at a new key, and not at an old one.
#[test]
fn values_are_made_at_new_keys() {
    let mut map = StringPatriciaMap::from([("a", 1)]);
    let made = Cell::new(0);
    let make = || {
        made.set(made.get() + 1);
        5
    };
    assert!(!map.insert_with("a", make) && made.get() == 0);
    assert!(map.insert_with("b", make) && made.get() == 1);
    assert_eq!((*map.get_or_insert_with("a", make), made.get()), (1, 1));
    assert_eq!((*map.get_or_insert_with("c", make), made.get()), (5, 2));
}

#[test]
fn update_asks_once_at_an_old_key() {
    let mut map = StringPatriciaMap::from([("a", 1)]);
    let mut asked = Vec::new();
    assert_eq!(map.update("b", |_| unreachable!()), None::<()>);
    assert_eq!(map.update("a", |value| asked.push(*value)), Some(()));
    assert_eq!(asked, [1]);
}
