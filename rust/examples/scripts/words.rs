//! How calls and answers are written.

use crate::Kind;
use patricia::BorrowedBytes;

/// A line that is a call.
pub struct Call<'t> {
    pub line: &'t str,
    pub kind: &'t str,
    pub name: &'t str,
    pub words: Vec<Vec<u8>>,
}

impl<'t> Call<'t> {
    /// The call that a line is, if it is one.
    pub fn read(line: &'t str) -> Option<Self> {
        let mut words = line.split(' ');
        let (kind, name) = (words.next()?, words.next()?);
        let words = words.map(argument).collect();
        Some(Call {
            line,
            kind,
            name,
            words,
        })
    }
}

// The bytes that a part of a word stands for.
fn part(text: &str) -> Vec<u8> {
    let (text, times) = text.split_once('*').unwrap_or((text, "1"));
    let (mut bytes, mut left) = (Vec::new(), text.as_bytes());
    while let [first, rest @ ..] = left {
        (bytes, left) = match left {
            [b'%', high, low, rest @ ..] => {
                let digits = [*high, *low];
                let digits = std::str::from_utf8(&digits).expect("digits");
                bytes.push(u8::from_str_radix(digits, 16).expect("a hexadecimal number"));
                (bytes, rest)
            }
            _ => {
                bytes.push(*first);
                (bytes, rest)
            }
        };
    }
    bytes.repeat(times.parse().unwrap_or(0))
}

fn argument(word: &str) -> Vec<u8> {
    word.split('+').flat_map(part).collect()
}

/// The number that some digits write.
pub fn number(digits: &[u8]) -> u64 {
    let text = std::str::from_utf8(digits).unwrap_or("");
    text.parse().unwrap_or(0)
}

/// The key of some bytes, if they are one.
pub fn key<K: Kind>(bytes: &[u8]) -> Option<&K::Part> {
    K::Part::is_valid_bytes(bytes).then(|| K::Part::from_bytes(bytes))
}

/// The keys among words.
pub fn keys<K: Kind>(words: &[Vec<u8>]) -> Vec<&K::Part> {
    words.iter().filter_map(|word| key::<K>(word)).collect()
}

/// The keys among words, each with the number after it.
pub fn pairs<K: Kind>(words: &[Vec<u8>]) -> Vec<(&K::Part, u64)> {
    let pair = |pair: &'_ [Vec<u8>]| number(&pair[1]);
    let numbers = words.chunks_exact(2).map(pair);
    let made = words.chunks_exact(2).map(|pair| key::<K>(&pair[0]));
    made.zip(numbers)
        .filter_map(|(key, value)| Some((key?, value)))
        .collect()
}

/// The bytes of a key in letters, digits and escapes.
pub fn written(bytes: &[u8]) -> String {
    let escaped = |byte: &u8| match byte {
        byte if byte.is_ascii_alphanumeric() => char::from(*byte).to_string(),
        byte => format!("%{byte:02X}"),
    };
    bytes.iter().map(escaped).collect()
}

/// An entry of a map.
pub fn row(key: &[u8], value: u64) -> String {
    format!("{}={value}", written(key))
}

/// What was found, or `none`.
pub fn shown(found: Option<impl ToString>) -> String {
    found.map_or("none".to_string(), |found| found.to_string())
}

/// All that an iterator gives, which gives nothing after its end.
pub fn drained<I: Iterator>(mut iterator: I) -> Vec<I::Item> {
    let items = iterator.by_ref().collect();
    assert!(iterator.next().is_none() && iterator.next().is_none());
    items
}
