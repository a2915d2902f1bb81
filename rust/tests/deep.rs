//! Trees of 65,535 levels, under a small call stack: no call's use of it grows with the tree. And
//! what is dropped with them: each value, once.

use patricia::{DecodeError, PatriciaMap, PatriciaSet, TooDeep};
use std::rc::Rc;
use std::thread;

/// Far less than a frame for each level would take.
const STACK: usize = 256 * 1024;

/// How many levels tree bytes have at the most.
const LEVELS: u16 = u16::MAX;

/// The tree bytes of one record at each level, with the label `a`. All but the last have the same
/// flags.
fn chain(flags: u8, last: u8) -> Vec<u8> {
    let record = |level: u16| {
        let [high, low] = level.to_be_bytes();
        let flags = if level == LEVELS { last } else { flags };
        [flags, 1, high, low, b'a']
    };
    let mut tree = vec![12, 0, 0, 0];
    tree.extend((1..=LEVELS).flat_map(record));
    tree
}

/// The map of the keys a, aa, aaa and so on, with their lengths as values.
fn map() -> PatriciaMap<u32> {
    PatriciaMap::from_tree_bytes(&chain(15, 3), (1..=LEVELS.into()).collect()).unwrap()
}

fn key(len: usize) -> Vec<u8> {
    vec![b'a'; len]
}

/// Calls something under a small call stack.
fn on_small_stack(call: fn()) {
    let thread = thread::Builder::new().stack_size(STACK).spawn(call);
    thread.unwrap().join().unwrap();
}

#[test]
fn one_more_level_has_wide_bytes_alone() {
    on_small_stack(|| {
        let mut map = map();
        assert_eq!(map.get(key(65_535)), Some(&65_535));
        assert_eq!(map.tree_bytes().unwrap(), chain(15, 3));
        assert_eq!(map.insert(key(65_536), 65_536), None);
        assert_eq!(map.get(key(65_536)), Some(&65_536));
        assert_eq!(map.tree_bytes(), Err(TooDeep));
        let wide = map.wide_tree_bytes().unwrap();
        assert_eq!(wide.len(), 458_758);
        assert!(wide.ends_with(&[3, 1, 0, 1, 0, 0, b'a']));
        let values = (1..=65_536).collect();
        assert!(PatriciaMap::from_wide_tree_bytes(&wide, values).unwrap() == map);
    });
}

#[test]
fn lone_children_are_joined() {
    on_small_stack(|| {
        let map = PatriciaMap::from_tree_bytes(&chain(12, 3), vec![9]).unwrap();
        assert_eq!((map.len(), map.get(key(65_535))), (1, Some(&9)));
        // the root and 257 pieces of 255 bytes
        let tree = map.tree_bytes().unwrap();
        assert_eq!(tree.len(), 4 + 257 * (4 + 255));
        assert!(PatriciaMap::from_tree_bytes(&tree, vec![9]).unwrap() == map);
    });
}

#[test]
fn look_ups_and_walks_take_no_more_of_the_stack() {
    on_small_stack(|| {
        let mut map = map();
        let longest = map
            .get_longest_common_prefix(&[key(70_000), key(1)].concat())
            .map(|e| *e.1);
        assert_eq!(longest, Some(65_535));
        assert_eq!(map.longest_common_prefix_len(&key(70_000)), 65_535);
        assert_eq!(map.common_prefix_values(&key(70_000)).count(), 65_535);
        assert_eq!(map.count_prefix(key(60_000)), 5_536);
        assert!(map.last_key_value().is_some_and(|entry| *entry.1 == 65_535));
        assert!(
            map.first_after(key(65_534))
                .is_some_and(|entry| *entry.1 == 65_535)
        );
        assert_eq!(map.values().count(), 65_535);
        map.values_mut().for_each(|value| *value += 1);
        let mut cursor = map.cursor();
        assert!((0..65_535).all(|_| cursor.advance()) && !cursor.advance());
        assert_eq!(map.range(key(65_533)..).count(), 3);
        assert_eq!(map.iter_prefix(&key(65_533)[..]).count(), 3);
        map.iter_prefix_mut(&key(65_533)[..])
            .for_each(|entry| *entry.1 += 1);
        map.for_each_prefix(&key(65_530)[..], |_, value| assert!(*value > 65_530));
        assert_eq!(map.get(key(65_534)), Some(&65_536));
        // dropped after its first item
        assert!(map.iter().next().is_some() && map.iter_prefix(b"aa").next().is_some());
        assert!(map.iter_mut().next().is_some() && map.values_mut().next().is_some());
        let copy = map.clone();
        assert!(copy == map && map.len() == 65_535);
    });
}

#[test]
fn changes_take_no_more_of_the_stack() {
    on_small_stack(|| {
        let mut map = map();
        let mut part = map.split_by_prefix(key(65_000));
        assert_eq!((part.len(), map.len()), (536, 64_999));
        assert!(part.pop_last().is_some_and(|entry| entry.1 == 65_535));
        assert_eq!(part.remove(key(65_200)), Some(65_200));
        map.merge_with(part, |_, _| unreachable!());
        assert_eq!(map.len(), 65_533);
        map.retain(|key, _| key.len() % 2 == 0);
        assert_eq!(map.len(), 32_766);
        assert_eq!(map.remove_prefix(key(60_000)), 2_767);
        let set = PatriciaSet::from_tree_bytes(&chain(15, 3), LEVELS.into()).unwrap();
        let one = PatriciaSet::from([key(7)]);
        assert!(one.is_subset(&set) && set.intersection(&one) == one);
        assert_eq!(set.difference(&one).len(), 65_534);
    });
}

/// A node at each level, with another one beside it: as many wait as there are levels.
#[test]
fn siblings_wait_at_each_level() {
    on_small_stack(|| {
        const DEPTH: u32 = 120_000;
        let record = |flags, level: u32, label| {
            let [a, b, c, d] = level.to_be_bytes();
            [flags, 1, a, b, c, d, label]
        };
        let down =
            (1..=DEPTH).map(|level| record(if level < DEPTH { 63 } else { 51 }, level, b'a'));
        let up = (1..=DEPTH).rev().map(|level| record(3, level, b'b'));
        let mut tree = vec![12, 0, 0, 0, 0, 0];
        tree.extend(down.chain(up).flatten());
        let values = (0..2 * DEPTH).collect();
        let mut map = PatriciaMap::from_wide_tree_bytes(&tree, values).unwrap();
        assert!(map.values().copied().eq(0..2 * DEPTH));
        assert!(map.values_mut().map(|value| *value).eq(0..2 * DEPTH));
        let mut cursor = map.cursor();
        assert!((0..2 * DEPTH).all(|number| cursor.advance() && cursor.value() == Some(&number)));
        assert_eq!(map.wide_tree_bytes().unwrap(), tree);
    });
}

/// A map of that many keys whose values are counted.
fn counted(token: &Rc<()>) -> PatriciaMap<Rc<()>> {
    let values = vec![token.clone(); LEVELS.into()];
    PatriciaMap::from_tree_bytes(&chain(15, 3), values).unwrap()
}

#[test]
fn values_are_dropped_once() {
    on_small_stack(|| {
        let token = Rc::new(());
        let count = || Rc::strong_count(&token) - 1;
        drop(counted(&token));
        assert_eq!(count(), 0);
        let mut map = counted(&token);
        assert_eq!(count(), 65_535);
        map.clear();
        assert_eq!(count(), 0);
        let mut map = counted(&token);
        let part = map.split_by_prefix(key(1_000));
        assert_eq!(count(), 65_535);
        drop(part);
        assert_eq!(count(), 999);
        drop(map);
        let mut entries = counted(&token).into_iter();
        let items = (entries.next(), entries.next());
        assert_eq!(count(), 65_535);
        drop(entries);
        assert_eq!(count(), 2);
        drop(items);
        assert_eq!(count(), 0);
    });
}

/// Asserts how tree bytes are refused with so many values, and that each of these is dropped.
fn check_refused(tree: &[u8], values: usize, wanted: DecodeError) {
    let token = Rc::new(());
    let read = PatriciaMap::from_tree_bytes(tree, vec![token.clone(); values]);
    assert_eq!(read.err(), Some(wanted));
    assert_eq!(Rc::strong_count(&token), 1);
}

/// Behind 65,535 values a child is due, which is missing or at a level that cannot be written, or a
/// byte is left.
#[test]
fn values_are_dropped_with_deep_trees_that_are_refused() {
    on_small_stack(|| {
        let mut tree = chain(15, 15);
        check_refused(&tree, 65_535, DecodeError::Truncated(327_679));
        tree.extend([3, 1, 0, 0, b'a']);
        check_refused(&tree, 65_536, DecodeError::Level(327_679));
        let longer = [chain(15, 3), vec![0]].concat();
        check_refused(&longer, 65_535, DecodeError::TrailingBytes(327_679));
    });
}

/// The keys of no byte, `bar`, `baz` and `foo`.
const FOUR: [u8; 27] = [
    15, 0, 0, 0, 60, 2, 0, 1, 98, 97, 51, 1, 0, 2, 114, 3, 1, 0, 2, 122, 3, 3, 0, 1, 102, 111, 111,
];

/// Another byte at a place, how many values there are, and what is wrong: before a value is read,
/// behind one, two and all, and with fewer values than marks, and more.
const FAULTS: [(usize, u8, usize, DecodeError); 6] = [
    (3, 1, 4, DecodeError::Level(0)),
    (7, 2, 4, DecodeError::Level(4)),
    (13, 1, 4, DecodeError::Level(10)),
    (8, 103, 4, DecodeError::SiblingOrder(20)),
    (0, 15, 3, DecodeError::TooFewValues(20)),
    (0, 15, 5, DecodeError::TooManyValues),
];

#[test]
fn values_are_dropped_with_trees_that_are_refused() {
    for (at, byte, values, wanted) in FAULTS {
        let mut tree = FOUR;
        tree[at] = byte;
        check_refused(&tree, values, wanted);
    }
}
