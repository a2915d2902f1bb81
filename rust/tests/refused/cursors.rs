//! The cursors of the proved code, which lend one value at a time: a step that is refused changes
//! nothing, and the next one lends the entry that was due.

use patricia::workbench::{AllocError, Global, StringPatriciaMap, made, refuse};
use std::fmt::Debug;

type Map = StringPatriciaMap<u32>;

/// How much is added to a value that is lent.
const MORE: u32 = 100;

/// How a step is made.
#[derive(Clone, Copy, Debug)]
enum How {
    Next,
    With,
    InTwo,
}

/// Keys with labels of at most 30 bytes and of more, and some that begin the next.
fn entries() -> Vec<(String, u32)> {
    let (bars, foos) = ("bar ".repeat(9), "foo ".repeat(9));
    let long = ["bar", "bar a", "bar a b"].map(|end| format!("{bars}{end}"));
    let others = ["bar ", "baz ", "foo"].map(|end| format!("{foos}{}", end.repeat(9)));
    let short = ["", "bar", "baz", "x"].map(str::to_string);
    let mut keys = [&short[..], &long, &others].concat();
    keys.sort();
    keys.into_iter().zip(1..).collect()
}

/// The empty prefix, one at a node without value and one at a node with one, two that end inside a
/// long label, and two with nothing under them.
fn prefixes() -> [String; 7] {
    let inside = format!("{}baz ba", "foo ".repeat(9));
    ["", "ba", "bar", "foo foo f", &inside, "foo foo bar", "xy"].map(str::to_string)
}

fn map() -> Map {
    let mut map = Map::new(Global);
    for (key, value) in entries() {
        assert!(map.insert(key.as_str(), value).is_ok());
    }
    map
}

/// Adds to a value, and returns what it was.
fn raise(value: &mut u32) -> u32 {
    *value += MORE;
    *value - MORE
}

/// Takes steps up to the end, which stays one. Returns what they lent, and how many were refused.
fn run<T: Debug>(mut step: impl FnMut() -> Result<Option<T>, AllocError>) -> (Vec<T>, usize) {
    let (mut lent, mut errors) = (Vec::new(), 0);
    loop {
        match step() {
            Ok(Some(item)) => lent.push(item),
            Ok(None) => break,
            Err(AllocError) => errors += 1,
        }
    }
    for _ in 0..2 {
        assert!(matches!(step(), Ok(None)));
    }
    (lent, errors)
}

/// Runs a cursor with each request refused in turn. One step is refused then and no more, each
/// entry under a prefix is lent once, in order, and no other value is changed.
fn at_each<T: Debug + PartialEq>(
    prefix: &str,
    item: impl Fn(&(String, u32)) -> T,
    call: impl Fn(&mut Map) -> (Vec<T>, usize),
) {
    let entries = entries();
    let is_under = |entry: &&(String, u32)| entry.0.starts_with(prefix);
    let wanted: Vec<T> = entries.iter().filter(is_under).map(item).collect();
    for number in 1.. {
        let mut map = map();
        refuse(number);
        let (lent, errors) = call(&mut map);
        let is_refused = made() >= number;
        refuse(0);
        assert_eq!(errors, usize::from(is_refused));
        assert_eq!(lent, wanted);
        for entry in &entries {
            let more = if is_under(&entry) { MORE } else { 0 };
            assert_eq!(map.get(entry.0.as_str()), Some(&(entry.1 + more)));
        }
        if !is_refused {
            break;
        }
    }
}

/// A step of a cursor over entries.
macro_rules! step {
    ($cursor:ident, $how:ident) => {
        match $how {
            How::Next => $cursor
                .next()
                .map(|entry| entry.map(|(key, value)| (key, raise(value)))),
            How::With => $cursor.next_with(|key, value| (key, raise(value))),
            How::InTwo => match $cursor.advance() {
                Ok(Some(key)) => Ok(Some((key, raise($cursor.value().unwrap())))),
                Ok(None) => Ok(None),
                Err(error) => Err(error),
            },
        }
    };
}

const HOWS: [How; 3] = [How::Next, How::With, How::InTwo];

#[test]
fn iter_mut_goes_on_at_the_entry_that_was_refused() {
    for how in HOWS {
        at_each("", Clone::clone, |map| {
            let mut cursor = map.iter_mut();
            run(|| step!(cursor, how))
        });
    }
}

#[test]
fn iter_prefix_mut_goes_on_at_the_entry_that_was_refused() {
    for how in HOWS {
        for prefix in &prefixes() {
            at_each(prefix, Clone::clone, |map| {
                let mut cursor = map.iter_prefix_mut(prefix.as_str());
                run(|| step!(cursor, how))
            });
        }
    }
}

#[test]
fn values_mut_goes_on_at_the_value_that_was_refused() {
    for how in HOWS {
        at_each(
            "",
            |entry| entry.1,
            |map| {
                let mut cursor = map.values_mut();
                run(|| match how {
                    How::Next => cursor.next().map(|value| value.map(raise)),
                    How::With => cursor.next_with(raise),
                    How::InTwo => Ok(cursor.advance()?.then(|| raise(cursor.value().unwrap()))),
                })
            },
        );
    }
}

/// A cursor that is dropped has changed what it lent, and nothing before its first step.
#[test]
fn cursors_that_are_dropped_leave_the_rest() {
    let mut map = map();
    assert!(map.iter_mut().value().is_none() && map.values_mut().value().is_none());
    assert!(map.iter_prefix_mut("ba").value().is_none());
    let mut cursor = map.iter_prefix_mut("ba");
    assert_eq!(cursor.next().unwrap().map(|entry| raise(entry.1)), Some(2));
    drop(cursor);
    for (key, value) in entries() {
        let more = if key == "bar" { MORE } else { 0 };
        assert_eq!(map.get(key.as_str()), Some(&(value + more)));
    }
}
