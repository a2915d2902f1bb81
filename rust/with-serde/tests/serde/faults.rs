//! What is refused, and what the error says.

use crate::TREE;
use patricia::{PatriciaMap, PatriciaSet, StringPatriciaMap};
use serde::de::DeserializeOwned;

/// Asserts that a text is refused, with an error whose text has a part.
#[track_caller]
fn says<T: DeserializeOwned>(text: &str, fault: &str) {
    let error = match serde_json::from_str::<T>(text) {
        Ok(_) => panic!("{text} is read"),
        Err(error) => error.to_string(),
    };
    assert!(
        error.contains(fault),
        "{text}: {error:?} does not say {fault:?}"
    );
}

#[test]
fn bytes_that_are_no_tree() {
    says::<PatriciaMap<u32>>("[[],[]]", "record cut short at 0");
    says::<PatriciaMap<u32>>("[[3,0,0],[1]]", "record cut short at 0");
    says::<PatriciaMap<u32>>("[[12,0,0,0,3,2,0,1,97],[1]]", "record cut short at 4");
    says::<PatriciaMap<u32>>("[[3,0,0,0,5],[1]]", "bytes after the tree at 4");
    says::<PatriciaMap<u32>>("[[3,0,1,0],[1]]", "wrong level at 0");
    says::<PatriciaMap<u32>>("[[3,1,0,0,97],[1]]", "root with a label at 0");
    says::<PatriciaSet>("[[3,0,0],[null]]", "record cut short at 0");
    says::<PatriciaSet>("[[3,0,0,0,5],[null]]", "bytes after the tree at 4");
}

#[test]
fn values_that_are_too_few_or_too_many() {
    says::<PatriciaMap<u32>>(&format!("[{TREE},[2,3]]"), "too few values at 20");
    says::<PatriciaMap<u32>>(&format!("[{TREE},[2,3,1,4]]"), "too many values");
    says::<PatriciaSet>(&format!("[{TREE},[null]]"), "too few values at 15");
    says::<PatriciaSet>(
        &format!("[{TREE},[null,null,null,null]]"),
        "too many values",
    );
}

#[test]
fn bytes_of_a_text_that_are_not_utf_8() {
    let text = "[[12,0,0,0,3,1,0,1,200],[1]]";
    says::<StringPatriciaMap<u32>>(text, "invalid label at 4");
    assert!(serde_json::from_str::<PatriciaMap<u32>>(text).is_ok());
}

#[test]
fn numbers_that_are_no_bytes() {
    says::<PatriciaMap<u32>>(
        "[[3,0,0,256],[1]]",
        "invalid value: integer `256`, expected u8",
    );
    says::<PatriciaMap<u32>>(
        "[[3,0,0,-1],[1]]",
        "invalid value: integer `-1`, expected u8",
    );
    says::<PatriciaMap<u32>>("[[3,0,0,null],[1]]", "invalid type: null, expected u8");
}

#[test]
fn what_is_no_pair() {
    says::<PatriciaMap<u32>>("{}", "invalid type: map, expected a tuple of size 2");
    says::<PatriciaMap<u32>>("7", "invalid type: integer `7`, expected a tuple of size 2");
    says::<PatriciaMap<u32>>("[]", "invalid length 0, expected a tuple of size 2");
    says::<PatriciaMap<u32>>(
        "[[3,0,0,0]]",
        "invalid length 1, expected a tuple of size 2",
    );
    says::<PatriciaMap<u32>>("[[3,0,0,0],[1],[]]", "trailing characters");
    says::<PatriciaSet>("[[3,0,0,0],[null],[]]", "trailing characters");
    says::<PatriciaSet>("null", "invalid type: null, expected a tuple of size 2");
}

#[test]
fn parts_of_a_wrong_type() {
    says::<PatriciaMap<u32>>("[7,[1]]", "expected the tree bytes of a map or a set");
    says::<PatriciaMap<u32>>(
        "[[3,0,0,0],[\"a\"]]",
        "invalid type: string \"a\", expected u32",
    );
    says::<PatriciaMap<u32>>(
        "[[3,0,0,0],7]",
        "invalid type: integer `7`, expected a sequence",
    );
    says::<PatriciaSet>(
        "[[3,0,0,0],[7]]",
        "invalid type: integer `7`, expected unit",
    );
}
