//! Times maps of this crate beside std's ordered map, over the lines of the input as keys:
//!
//!     cargo run --release --example bench -- [ROUNDS [LINE..]] < KEYS
//!
//! Every other line is inserted, in random order, and the rest is absent. A figure is the least of
//! some rounds, in which both maps take turns, in nanoseconds of processor time a call or an entry.
//! Lines named are the only ones that are printed.

mod bytes;
mod keys;
mod sheet;
mod texts;

use keys::Lists;
use sheet::Sheet;
use std::io::Read;

const ROUNDS: usize = 5;

fn main() {
    let mut words = std::env::args().skip(1);
    let rounds = words
        .next()
        .map_or(ROUNDS, |word| word.parse().expect("a number of rounds"));
    let only: Vec<String> = words.collect();
    let mut input = Vec::new();
    std::io::stdin().read_to_end(&mut input).expect("an input");
    let lists = Lists::of(&input);
    println!("{} keys, {rounds} rounds", lists.present.len());
    let mut sheet = Sheet::default();
    for _ in 0..rounds {
        bytes::ours(&mut sheet, &lists);
        bytes::std(&mut sheet, &lists);
    }
    sheet.print("byte strings", &only);
    if let Some(texts) = lists.texts() {
        let mut sheet = Sheet::default();
        for _ in 0..rounds {
            texts::ours(&mut sheet, &texts);
            texts::std(&mut sheet, &texts);
        }
        sheet.print("texts, collected and inserted", &only);
    }
}
