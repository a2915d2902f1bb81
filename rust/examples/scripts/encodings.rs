//! The calls about tree bytes.

use crate::words::{number, written};
use patricia::{DecodeError, WireError};

/// A map or a set that is encoded and decoded.
pub trait Encoded: Sized {
    /// The values of a map, or their number of a set.
    type Values;

    fn len(&self) -> usize;

    /// The entries of a map or the elements of a set, as they are written.
    fn rows(&self) -> Vec<String>;

    fn encode(&self, is_wide: bool) -> Result<Vec<u8>, WireError>;

    fn decode(tree: &[u8], is_wide: bool, values: Self::Values) -> Result<Self, DecodeError>;

    /// The values that it has.
    fn values(&self) -> Self::Values;

    /// The values that the words after the tree bytes are.
    fn given(words: &[Vec<u8>]) -> Self::Values;

    /// The values 1, 2 and so on up to a number.
    fn numbers(count: u64) -> Self::Values;
}

/// The answers to a call about tree bytes.
pub fn answer<E: Encoded>(of: &mut E, call: &str, words: &[Vec<u8>]) -> Option<Vec<String>> {
    let (call, is_wide) = match call.strip_suffix("_wide") {
        Some(narrow) => (narrow, true),
        None => (call, false),
    };
    Some(match call {
        "tree" => tree(of.encode(is_wide)),
        "size" => size(of.encode(is_wide), if is_wide { 4 } else { 2 }),
        "reload" => match of.encode(is_wide) {
            Ok(tree) => opened(of, E::decode(&tree, is_wide, of.values())),
            Err(fault) => vec![fault.to_string()],
        },
        "open" => opened(
            of,
            E::decode(&words[0], is_wide, E::numbers(number(&words[1]))),
        ),
        "read" => match E::decode(&words[0], is_wide, E::given(&words[1..])) {
            Ok(read) => {
                *of = read;
                of.rows()
            }
            Err(fault) => vec![fault.to_string()],
        },
        _ => return None,
    })
}

// Replaces a map or a set, and returns how many entries there are then, or the fault.
fn opened<E: Encoded>(of: &mut E, read: Result<E, DecodeError>) -> Vec<String> {
    match read {
        Ok(read) => {
            *of = read;
            vec![of.len().to_string()]
        }
        Err(fault) => vec![fault.to_string()],
    }
}

// The bytes, or why there are none.
fn tree(made: Result<Vec<u8>, WireError>) -> Vec<String> {
    vec![made.map_or_else(|fault| fault.to_string(), |bytes| written(&bytes))]
}

// The numbers of bytes and of records whose levels have so many bytes, and the deepest level.
fn size(made: Result<Vec<u8>, WireError>, width: usize) -> Vec<String> {
    let bytes = match made {
        Ok(bytes) => bytes,
        Err(fault) => return vec![fault.to_string()],
    };
    let (mut at, mut records, mut deepest) = (0, 0_u64, 0);
    while at < bytes.len() {
        let level = &bytes[at + 2..at + 2 + width];
        let level = level.iter().fold(0, |n, byte| n * 256 + u64::from(*byte));
        (records, deepest) = (records + 1, level.max(deepest));
        at += 2 + width + usize::from(bytes[at + 1]);
    }
    [bytes.len() as u64, records, deepest]
        .map(|n| n.to_string())
        .to_vec()
}
