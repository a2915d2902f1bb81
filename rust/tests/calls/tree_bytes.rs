//! Tree bytes: worked examples, and each error.

use crate::encodings::{THREE, WIDE};
use patricia::{DecodeError, GenericPatriciaMap, PatriciaMap, PatriciaSet, StringPatriciaMap};
use patricia::{StringPatriciaSet, TooDeep, WireError};

fn fault(bytes: &[u8], count: usize) -> DecodeError {
    let read = PatriciaMap::from_tree_bytes(bytes, vec![(); count]);
    let error = read.map(|map| map.len()).unwrap_err();
    let set = PatriciaSet::from_tree_bytes(bytes, count);
    assert_eq!(set.map(|set| set.len()), Err(error));
    let set = PatriciaSet::try_from_tree_bytes(bytes, count);
    assert_eq!(set.map(|set| set.len()), Err(error));
    error
}

fn wide_fault(bytes: &[u8], count: usize) -> DecodeError {
    let read = PatriciaMap::from_wide_tree_bytes(bytes, vec![(); count]);
    let error = read.map(|map| map.len()).unwrap_err();
    let set = PatriciaSet::from_wide_tree_bytes(bytes, count);
    assert_eq!(set.map(|set| set.len()), Err(error));
    error
}

/// The example with one byte changed.
fn changed(at: usize, byte: u8) -> [u8; 27] {
    let mut bytes = THREE;
    bytes[at] = byte;
    bytes
}

#[test]
fn bar_baz_and_foo_are_27_bytes() {
    let map = PatriciaMap::from([("foo", 1), ("bar", 2), ("baz", 3)]);
    assert_eq!(map.tree_bytes().unwrap(), THREE);
    assert_eq!(map.try_tree_bytes().unwrap(), THREE);
    assert_eq!(map.wide_tree_bytes().unwrap(), WIDE);
    assert_eq!(map.try_wide_tree_bytes().unwrap(), WIDE);
    assert!(PatriciaMap::from_tree_bytes(&THREE, vec![2, 3, 1]) == Ok(map.clone()));
    assert!(PatriciaMap::try_from_tree_bytes(&THREE, vec![2, 3, 1]) == Ok(map.clone()));
    assert!(PatriciaMap::from_wide_tree_bytes(&WIDE, vec![2, 3, 1]) == Ok(map.clone()));
    assert!(PatriciaMap::try_from_wide_tree_bytes(&WIDE, vec![2, 3, 1]) == Ok(map));
    let set = PatriciaSet::from(["foo", "bar", "baz"]);
    assert_eq!(
        (set.tree_bytes().unwrap(), set.try_tree_bytes().unwrap()),
        (THREE.into(), THREE.into())
    );
    assert_eq!(set.wide_tree_bytes().unwrap(), WIDE);
    assert_eq!(set.try_wide_tree_bytes().unwrap(), WIDE);
    assert!(PatriciaSet::from_tree_bytes(&THREE, 3) == Ok(set.clone()));
    assert!(PatriciaSet::from_wide_tree_bytes(&WIDE, 3) == Ok(set.clone()));
    assert!(PatriciaSet::try_from_wide_tree_bytes(&WIDE, 3) == Ok(set));
}

#[test]
fn bytes_do_not_tell_the_history() {
    let mut map = StringPatriciaMap::new();
    for n in 0..500 {
        map.insert((n * 7 % 500).to_string(), n);
    }
    for n in 3..500 {
        map.remove(n.to_string());
    }
    let short = StringPatriciaMap::from([("0", 'a'), ("1", 'b'), ("2", 'c')]);
    assert_eq!(map.tree_bytes(), short.tree_bytes());
    assert_eq!(map.wide_tree_bytes(), short.wide_tree_bytes());
    let empty = StringPatriciaMap::<u32>::new();
    assert_eq!(empty.tree_bytes().unwrap(), [0, 0, 0, 0]);
    assert!(StringPatriciaMap::from_tree_bytes(&[0, 0, 0, 0], vec![]) == Ok(empty));
    let root = StringPatriciaMap::from([("", 1)]);
    assert_eq!(root.tree_bytes().unwrap(), [3, 0, 0, 0]);
    assert!(StringPatriciaMap::from_tree_bytes(&[3, 0, 0, 0], vec![1]) == Ok(root));
}

#[test]
fn labels_of_texts_are_whole_characters() {
    let map = StringPatriciaMap::from([("è", 1), ("é", 2)]);
    let bytes = [12, 0, 0, 0, 51, 2, 0, 1, 0xc3, 0xa8, 3, 2, 0, 1, 0xc3, 0xa9];
    assert_eq!(map.tree_bytes().unwrap(), bytes);
    assert!(StringPatriciaMap::from_tree_bytes(&bytes, vec![1, 2]) == Ok(map));
    // as bytes they are siblings with the same first item
    assert_eq!(fault(&bytes, 2), DecodeError::SiblingOrder(10));
    let bytes = PatriciaMap::from([([0xc3], 1)]).tree_bytes().unwrap();
    let read = StringPatriciaMap::from_tree_bytes(&bytes, vec![1]);
    assert!(read == Err(DecodeError::InvalidLabel(4)));
    let read = StringPatriciaSet::from_tree_bytes(&bytes, 1);
    assert!(read == Err(DecodeError::InvalidLabel(4)));
}

#[test]
fn each_fault_has_its_offset() {
    assert_eq!(fault(&[], 0), DecodeError::Truncated(0));
    assert_eq!(fault(&THREE[..12], 3), DecodeError::Truncated(10));
    assert_eq!(fault(&changed(13, 1), 3), DecodeError::Level(10));
    assert_eq!(fault(&[12, 1, 0, 0, 97], 0), DecodeError::RootLabel(0));
    assert_eq!(fault(&changed(0, 60), 3), DecodeError::RootSibling(0));
    assert_eq!(
        fault(&[12, 0, 0, 0, 3, 0, 0, 1], 1),
        DecodeError::EmptyLabel(4)
    );
    assert_eq!(fault(&changed(8, b'g'), 3), DecodeError::SiblingOrder(20));
    assert_eq!(fault(&changed(20, 0), 3), DecodeError::NoValueNoChild(20));
    assert_eq!(fault(&THREE, 2), DecodeError::TooFewValues(20));
    assert_eq!(fault(&THREE, 0), DecodeError::TooFewValues(10));
    assert_eq!(fault(&changed(4, 28), 3), DecodeError::TrailingBytes(20));
    assert_eq!(
        fault(&[&THREE[..], &[0]].concat(), 3),
        DecodeError::TrailingBytes(27)
    );
    assert_eq!(fault(&THREE, 4), DecodeError::TooManyValues);
    assert_eq!(fault(&WIDE, 3), DecodeError::Level(4));
}

#[test]
fn each_fault_of_wide_bytes_has_its_offset() {
    assert_eq!(wide_fault(&[], 0), DecodeError::Truncated(0));
    assert_eq!(wide_fault(&WIDE[..15], 3), DecodeError::Truncated(14));
    assert_eq!(wide_fault(&WIDE, 2), DecodeError::TooFewValues(28));
    assert_eq!(wide_fault(&WIDE, 4), DecodeError::TooManyValues);
    assert_eq!(
        wide_fault(&[&WIDE[..], &[0]].concat(), 3),
        DecodeError::TrailingBytes(37)
    );
    let mut bytes = WIDE;
    bytes[16] = 1;
    assert_eq!(wide_fault(&bytes, 3), DecodeError::Level(14));
}

#[test]
fn marks_alone_count_among_the_flags() {
    let map = PatriciaMap::from_tree_bytes(&changed(0, 8), vec![2, 3, 1]).unwrap();
    assert_eq!(map.tree_bytes().unwrap(), THREE);
    // a label that is cut where it need not be
    let cut = [12, 0, 0, 0, 12, 1, 0, 1, b'a', 3, 1, 0, 2, b'b'];
    let map = PatriciaMap::from_tree_bytes(&cut, vec![1]).unwrap();
    assert_eq!(map.get("ab"), Some(&1));
    assert_eq!(
        map.tree_bytes().unwrap(),
        [12, 0, 0, 0, 3, 2, 0, 1, b'a', b'b']
    );
}

/// The number of elements is not believed: no room is asked for by it.
#[test]
fn counts_of_sets_may_be_wrong() {
    for count in [4, 28, 1000, usize::MAX] {
        let read = PatriciaSet::from_tree_bytes(&THREE, count);
        assert!(read == Err(DecodeError::TooManyValues));
        let read = PatriciaSet::from_tree_bytes(&[], count);
        assert!(read == Err(DecodeError::Truncated(0)));
        let read = PatriciaSet::from_wide_tree_bytes(&WIDE, count);
        assert!(read == Err(DecodeError::TooManyValues));
    }
    let set = PatriciaSet::from_tree_bytes(&[3, 0, 0, 0], 1).unwrap();
    assert!(set.len() == 1 && set.contains(""));
}

/// No bytes that are cut or changed make a call panic, and what is read of them is whole.
#[test]
fn damaged_bytes_are_refused_or_another_tree() {
    for at in 0..THREE.len() {
        assert!(matches!(fault(&THREE[..at], 3), DecodeError::Truncated(_)));
        for byte in 0..=255 {
            for count in 0..5 {
                let read = PatriciaSet::from_tree_bytes(&changed(at, byte), count);
                let Ok(set) = read else { continue };
                assert_eq!((set.len(), set.iter().count()), (count, count));
                assert!(set.iter().all(|key| set.contains(key)));
            }
        }
    }
}

/// A tree is deeper than the levels say only if a key has that many labels of 255 bytes.
#[test]
fn trees_that_are_too_deep_have_wide_bytes_alone() {
    let mut key = vec![7; 255 * 65_535];
    let set = PatriciaSet::from([&key]);
    let bytes = set.tree_bytes().unwrap();
    assert!(PatriciaSet::from_tree_bytes(&bytes, 1) == Ok(set));
    key.push(7);
    let map: GenericPatriciaMap<Vec<u8>, u32> = PatriciaMap::from([(&key, 5)]);
    assert_eq!(map.tree_bytes(), Err(TooDeep));
    assert_eq!(map.try_tree_bytes(), Err(WireError::TooDeep));
    let wide = map.wide_tree_bytes().unwrap();
    assert!(PatriciaMap::from_wide_tree_bytes(&wide, vec![5]) == Ok(map));
    let set = PatriciaSet::from([&key]);
    assert_eq!(
        (set.tree_bytes(), set.try_tree_bytes()),
        (Err(TooDeep), Err(WireError::TooDeep))
    );
}

#[test]
fn errors_have_texts() {
    assert_eq!(
        DecodeError::Truncated(4).to_string(),
        "record cut short at 4"
    );
    assert_eq!(DecodeError::TooManyValues.to_string(), "too many values");
    assert_eq!(
        DecodeError::SiblingOrder(20).to_string(),
        "siblings out of order at 20"
    );
    assert!(TooDeep.to_string().contains("too deep"));
    let errors: [Box<dyn std::error::Error>; 6] = [
        Box::new(DecodeError::Level(1)),
        Box::new(WireError::TooDeep),
        Box::new(TooDeep),
        Box::new(patricia::NotInOrder),
        Box::new(patricia::LoadError::Memory),
        Box::new(patricia::Refused { value: 1 }),
    ];
    assert!(errors.iter().all(|error| !error.to_string().is_empty()));
    assert_eq!(
        patricia::AllocError::from(patricia::Refused { value: 1 }),
        patricia::AllocError
    );
}
