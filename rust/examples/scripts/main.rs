//! Answers the lines that the proved program `test_scripts` answers, over the calls of this crate:
//!
//!     cargo run --example scripts -- calls    # the kinds of lines with their calls
//!     cargo run --example scripts < LINES
//!
//! `crates/test_scripts/src/main.rt` says what a line is. Lines of other kinds are left out.

mod encodings;
mod key_calls;
mod maps;
mod sets;
#[path = "../../tests/common/units.rs"]
#[allow(dead_code)]
mod units;
mod words;

use maps::Map;
use patricia::{BorrowedBytes, Bytes};
use sets::Set;
use std::fmt::Debug;
use std::io::{self, BufWriter, Read, Write};
use units::UnitKey;
use words::Call;

/// A kind of keys.
pub trait Kind: Bytes<Borrowed = Self::Part> + AsRef<Self::Part> + Debug {
    /// The borrowed form.
    type Part: ?Sized + BorrowedBytes + ToOwned<Owned = Self> + AsRef<Self::Part> + 'static;

    /// The Debug text of a map or a set, which is not asked of maps and sets of units.
    fn debug<D: Debug>(of: &D, is_wide: bool) -> String {
        if is_wide {
            format!("{of:#?}")
        } else {
            format!("{of:?}")
        }
    }
}

impl Kind for Vec<u8> {
    type Part = [u8];
}

impl Kind for String {
    type Part = str;
}

impl Kind for UnitKey {
    type Part = units::Units;

    fn debug<D: Debug>(_: &D, _: bool) -> String {
        "unknown".to_string()
    }
}

/// A map or a set that answers calls.
pub trait Answering: Default {
    /// The calls that it answers.
    const CALLS: &'static [&'static str];

    /// The answers to one of them.
    fn answer(&mut self, call: &str, words: &[Vec<u8>]) -> Option<Vec<String>>;
}

// Writes the calls of one kind with their answers.
fn write<A: Answering>(out: &mut impl Write, kind: &str, calls: &[Call]) -> io::Result<()> {
    let mut asked = A::default();
    for call in calls.iter().filter(|call| call.kind == kind) {
        let answers = asked.answer(call.name, &call.words);
        let answers = answers.unwrap_or_else(|| panic!("no such call: {}", call.line));
        writeln!(out, "{}: {}", call.line, answers.join(" "))?;
    }
    Ok(())
}

// Writes the kinds of lines with their calls.
fn write_calls(out: &mut impl Write) -> io::Result<()> {
    for keys in ["bytes", "text", "units"] {
        for call in Map::<String>::CALLS {
            writeln!(out, "{keys} {call}")?;
        }
        for call in Set::<String>::CALLS {
            writeln!(out, "{keys}_set {call}")?;
        }
    }
    Ok(())
}

fn write_answers(out: &mut impl Write) -> io::Result<()> {
    let mut text = String::new();
    io::stdin().read_to_string(&mut text)?;
    let calls: Vec<Call> = text.lines().filter_map(Call::read).collect();
    write::<Map<Vec<u8>>>(out, "bytes", &calls)?;
    write::<Map<String>>(out, "text", &calls)?;
    write::<Map<UnitKey>>(out, "units", &calls)?;
    write::<Set<Vec<u8>>>(out, "bytes_set", &calls)?;
    write::<Set<String>>(out, "text_set", &calls)?;
    write::<Set<UnitKey>>(out, "units_set", &calls)
}

fn main() -> io::Result<()> {
    let mut out = BufWriter::new(io::stdout().lock());
    match std::env::args().nth(1).as_deref() {
        Some("calls") => write_calls(&mut out)?,
        _ => write_answers(&mut out)?,
    }
    out.flush()
}
