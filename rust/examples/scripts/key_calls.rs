//! The functions of the key traits.

use crate::Kind;
use crate::words::{key, number, shown, written};
use patricia::BorrowedBytes;
use std::cmp::Ordering;

/// The answers to a call, if it is one of them.
pub fn answer<K: Kind>(call: &str, words: &[Vec<u8>]) -> Option<Vec<String>> {
    let copy = |bytes: &Vec<u8>| {
        shown(key::<K>(bytes).map(|key| written(key.to_owned().as_ref().as_bytes())))
    };
    match call {
        "floor" => {
            let floor = |bytes: &Vec<u8>| K::Part::floor_boundary(bytes).to_string();
            return Some(words.iter().map(floor).collect());
        }
        "copy" => return Some(words.iter().map(copy).collect()),
        _ => {}
    }
    let [bytes, other] = words else {
        return None;
    };
    let Some(key) = key::<K>(bytes) else {
        return Some(vec!["none".to_string()]);
    };
    Some(match call {
        "common" => common::<K>(key, other),
        "first" if !K::Part::is_valid_bytes(other) => vec!["none".to_string()],
        "first" => vec![match key.cmp_first_item(other) {
            Ordering::Less => "less".to_string(),
            Ordering::Equal => "equal".to_string(),
            Ordering::Greater => "greater".to_string(),
        }],
        "halves" => halves::<K>(key, number(other) as usize),
        _ => return None,
    })
}

// The length in common, the rest as both calls give it, and whether it is empty.
fn common<K: Kind>(key: &K::Part, other: &[u8]) -> Vec<String> {
    let (rest, len) = key.strip_common_prefix_and_len(other);
    let again = written(key.strip_common_prefix(other).as_bytes());
    let is_empty = rest.is_empty().to_string();
    vec![len.to_string(), written(rest.as_bytes()), again, is_empty]
}

// The first bytes of a key and the others, if the first are whole items.
fn halves<K: Kind>(key: &K::Part, n: usize) -> Vec<String> {
    match key.as_bytes().get(..n) {
        Some(front) if K::Part::is_valid_bytes(front) => {
            let (front, rest) = (key.keep_n_prefix(n), key.strip_n_prefix(n));
            vec![written(front.as_bytes()), written(rest.as_bytes())]
        }
        _ => vec!["none".to_string()],
    }
}
