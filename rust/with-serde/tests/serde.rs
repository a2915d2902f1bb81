//! Maps and sets written and read by serde: the pair of the tree bytes and the values in key order.

#[path = "serde/faults.rs"]
mod faults;
#[path = "serde/tokens.rs"]
mod tokens;

use patricia::{PatriciaMap, PatriciaSet, StringPatriciaMap, StringPatriciaSet};
use serde::Serialize;
use serde::de::DeserializeOwned;
use std::fmt::Debug;

const TREE: &str = "[12,0,0,0,60,2,0,1,98,97,51,1,0,2,114,3,1,0,2,122,3,3,0,1,102,111,111]";

fn three<T: From<[(&'static str, u32); 3]>>() -> T {
    T::from([("foo", 1), ("bar", 2), ("baz", 3)])
}

/// Asserts that a value is written as a text, and read from it as an equal one.
fn is_written<T: Serialize + DeserializeOwned + PartialEq + Debug>(value: &T, text: &str) {
    assert_eq!(serde_json::to_string(value).unwrap(), text);
    assert_eq!(&serde_json::from_str::<T>(text).unwrap(), value);
    assert_eq!(
        &serde_json::from_slice::<T>(text.as_bytes()).unwrap(),
        value
    );
    let tree = serde_json::to_value(value).unwrap();
    assert_eq!(&serde_json::from_value::<T>(tree).unwrap(), value);
}

#[test]
fn a_map_is_its_tree_bytes_and_values() {
    let text = format!("[{TREE},[2,3,1]]");
    is_written(&three::<PatriciaMap<u32>>(), &text);
    is_written(&three::<StringPatriciaMap<u32>>(), &text);
}

#[test]
fn a_set_is_its_tree_bytes_and_units() {
    let text = format!("[{TREE},[null,null,null]]");
    is_written(&PatriciaSet::from(["foo", "bar", "baz"]), &text);
    is_written(&StringPatriciaSet::from(["foo", "bar", "baz"]), &text);
}

#[test]
fn an_empty_map_and_an_empty_set_are_a_root() {
    is_written(&PatriciaMap::<u32>::new(), "[[0,0,0,0],[]]");
    is_written(&StringPatriciaSet::new(), "[[0,0,0,0],[]]");
}

#[test]
fn the_empty_key_is_in_the_root() {
    is_written(&StringPatriciaMap::from([("", 7)]), "[[3,0,0,0],[7]]");
    is_written(&PatriciaSet::from([""]), "[[3,0,0,0],[null]]");
}

#[test]
fn values_are_of_any_kind() {
    let inner = StringPatriciaMap::from([("a", vec![Some(1.5), None])]);
    let map = PatriciaMap::from([("k", inner)]);
    let text = "[[12,0,0,0,3,1,0,1,107],[[[12,0,0,0,3,1,0,1,97],[[1.5,null]]]]]";
    is_written(&map, text);
    let texts = StringPatriciaMap::from([("é", "ü".to_string())]);
    is_written(&texts, "[[12,0,0,0,3,2,0,1,195,169],[\"ü\"]]");
}

#[test]
fn many_keys_are_read_as_they_were_written() {
    let keys = (0..5000u32).map(|n| format!("{:x}", n.wrapping_mul(0x9e37_79b9)));
    let map: StringPatriciaMap<usize> = keys.enumerate().map(|(n, key)| (key, n)).collect();
    let text = serde_json::to_string(&map).unwrap();
    assert!(serde_json::from_str::<StringPatriciaMap<usize>>(&text).unwrap() == map);
    let long = PatriciaMap::from([([7; 1000], 1), ([8; 1000], 2)]);
    let text = serde_json::to_string(&long).unwrap();
    assert!(serde_json::from_str::<PatriciaMap<u32>>(&text).unwrap() == long);
}

#[test]
fn a_text_in_the_place_of_the_bytes_is_read_as_its_bytes() {
    let text = r#"["\u0003\u0000\u0000\u0000",[7]]"#;
    let map: PatriciaMap<u32> = serde_json::from_str(text).unwrap();
    assert_eq!(map, PatriciaMap::from([("", 7)]));
    let set: StringPatriciaSet = serde_json::from_str(&text.replace('7', "null")).unwrap();
    assert_eq!(set, StringPatriciaSet::from([""]));
}

/// A map with a key for each of so many levels, each with one more byte than the one before.
fn chain(levels: u32) -> PatriciaMap<()> {
    let mut bytes = vec![12, 0, 0, 0, 0, 0];
    for level in 1..=levels {
        bytes.extend([if level < levels { 15 } else { 3 }, 1]);
        bytes.extend(level.to_be_bytes());
        bytes.push(b'a');
    }
    let values = vec![(); levels as usize];
    PatriciaMap::from_wide_tree_bytes(&bytes, values).expect("the bytes are a tree")
}

#[test]
fn a_map_that_is_too_deep_is_an_error() {
    let fault = "a node of the tree is too deep for this encoding";
    for levels in [65_536, 65_600] {
        let error = serde_json::to_string(&chain(levels)).unwrap_err();
        assert_eq!(error.to_string(), fault);
    }
    let map = chain(65_535);
    let text = serde_json::to_string(&map).unwrap();
    assert!(serde_json::from_str::<PatriciaMap<()>>(&text).unwrap() == map);
    let set: PatriciaSet = serde_json::from_str(&text).unwrap();
    assert_eq!(serde_json::to_string(&set).unwrap(), text);
}
