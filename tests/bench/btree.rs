//! btree [counts|times|churn|fill] [LINE..]: what `bench_tree` does, over std's ordered map. Its walk lends
//! the keys. `fill` takes a word `hash`, too, for std's hash set.

use std::collections::{BTreeMap, BTreeSet, HashSet};
use std::ops::Bound;
use std::io::{BufRead, BufReader, Read};
use std::time::Instant;

type Map = BTreeMap<Vec<u8>, u64>;

// The keys that are inserted, those that are only asked for, and a prefix of about a tenth of the
// former.
struct Lists<'a> {
    present: Vec<&'a [u8]>,
    absent: Vec<&'a [u8]>,
    prefix: &'a [u8],
}

impl<'a> Lists<'a> {
    // Up to 100,000 of the absent keys.
    fn few(&self) -> &[&'a [u8]] {
        &self.absent[..self.absent.len().min(100_000)]
    }
}

fn put(map: &mut Map, keys: &[&[u8]]) -> u64 {
    let mut new = 0;
    for key in keys {
        if map.insert(key.to_vec(), new).is_none() {
            new += 1;
        }
    }
    new
}

fn found(map: &Map, keys: &[&[u8]]) -> u64 {
    keys.iter().filter(|key| map.get(**key).is_some()).count() as u64
}

fn walked(map: &Map) -> u64 {
    map.iter().map(|(key, _)| key.len() as u64).sum()
}

// Adds the last byte of each key.
fn scanned(map: &Map) -> u64 {
    map.iter().filter_map(|(key, _)| key.last()).map(|last| u64::from(*last)).sum()
}

fn summed(map: &Map) -> u64 {
    map.values().sum()
}

// Adds 1 to each value.
fn raised(map: &mut Map) -> u64 {
    let mut raised = 0;
    for value in map.values_mut() {
        *value = value.wrapping_add(1);
        raised += 1;
    }
    raised
}

// The lengths of the keys of ten entries from each key on.
fn from_ten(map: &Map, keys: &[&[u8]]) -> u64 {
    let mut bytes = 0;
    for key in keys {
        let from = (Bound::Included(*key), Bound::Unbounded);
        bytes += map.range::<[u8], _>(from).take(10).map(|(key, _)| key.len() as u64).sum::<u64>();
    }
    bytes
}

// How many entries are counted under one prefix at the most.
const MOST_UNDER: usize = 1000;

// The entries under the first half of each key, `MOST_UNDER` of each at the most.
fn under(map: &Map, keys: &[&[u8]]) -> u64 {
    let mut entries = 0;
    for key in keys {
        let prefix = &key[..key.len() / 2];
        let from = (Bound::Included(prefix), Bound::Unbounded);
        let rows = map.range::<[u8], _>(from).take_while(|(key, _)| key.starts_with(prefix));
        for (key, _) in rows.take(MOST_UNDER) {
            // the map answers a key of its own, too
            drop(key.clone());
            entries += 1;
        }
    }
    entries
}

// The lengths of the longest keys that begin each key: each beginning is looked up.
fn longest(map: &Map, keys: &[&[u8]]) -> u64 {
    let mut bytes = 0;
    for key in keys {
        if let Some(len) = (0..=key.len()).rev().find(|len| map.contains_key(&key[..*len])) {
            bytes += len as u64;
        }
    }
    bytes
}

// For how many keys there is an entry after them.
fn entries_after(map: &Map, keys: &[&[u8]]) -> u64 {
    let mut entries = 0;
    for key in keys {
        let from = (Bound::Excluded(*key), Bound::Unbounded);
        // the map answers a key of its own, too
        let entry = map.range::<[u8], _>(from).next().map(|(key, value)| (key.clone(), value));
        entries += u64::from(entry.is_some());
    }
    entries
}

// For how many keys there is an entry before them.
fn entries_before(map: &Map, keys: &[&[u8]]) -> u64 {
    let mut entries = 0;
    for key in keys {
        let to = (Bound::Unbounded, Bound::Excluded(*key));
        let entry = map.range::<[u8], _>(to).next_back().map(|(key, value)| (key.clone(), value));
        entries += u64::from(entry.is_some());
    }
    entries
}

// How many entries have a key that begins with a prefix.
fn count(map: &Map, prefix: &[u8]) -> u64 {
    let from = (Bound::Included(prefix), Bound::Unbounded);
    map.range::<[u8], _>(from).take_while(|(key, _)| key.starts_with(prefix)).count() as u64
}

// Removes the first entry and the last one by turns, and counts them.
fn popped(map: &mut Map) -> u64 {
    let mut count = 0;
    for i in 0..map.len() {
        let entry = if i % 2 == 0 { map.pop_first() } else { map.pop_last() };
        count += u64::from(entry.is_some());
    }
    count
}

// The first key after all those that begin with a prefix.
fn end(prefix: &[u8]) -> Option<Vec<u8>> {
    let last = prefix.iter().rposition(|byte| *byte < 255)?;
    let mut end = prefix[..=last].to_vec();
    end[last] += 1;
    Some(end)
}

// Takes out the entries that begin with a prefix: the map is cut before and behind them, and what
// stands behind them is put back.
fn split_by_prefix(map: &mut Map, prefix: &[u8]) -> Map {
    let mut part = map.split_off(prefix);
    if let Some(end) = end(prefix) {
        map.append(&mut part.split_off(end.as_slice()));
    }
    part
}

fn taken(map: &mut Map, keys: &[&[u8]]) -> u64 {
    keys.iter().filter(|key| map.remove(**key).is_some()).count() as u64
}

// The lines that are not empty, by turns in the first list and in the second.
fn read_keys(input: &[u8]) -> (Vec<&[u8]>, Vec<&[u8]>) {
    let (mut first, mut second) = (Vec::new(), Vec::new());
    for line in input.split(|byte| *byte == b'\n').filter(|line| !line.is_empty()) {
        if first.len() == second.len() {
            first.push(line);
        } else {
            second.push(line);
        }
    }
    (first, second)
}

fn shuffle(keys: &mut [&[u8]], seed: u64) {
    let mut random = seed;
    for i in 1..keys.len() {
        random ^= random << 13;
        random ^= random >> 7;
        random ^= random << 17;
        keys.swap(i, random as usize % (i + 1));
    }
}

// A prefix of about a tenth of the sorted keys: the nearest to it of the beginnings of eight keys.
fn tenth<'a>(keys: &[&'a [u8]]) -> &'a [u8] {
    let tenth = keys.len() / 10;
    let mut best: (&[u8], usize) = (&[], keys.len());
    for key in (0..8).filter_map(|eighth| keys.get(eighth * (keys.len() / 8))) {
        for len in 1..=key.len() {
            let begun = keys.iter().filter(|other| other.starts_with(&key[..len])).count();
            if begun.abs_diff(tenth) < best.1 {
                best = (&key[..len], begun.abs_diff(tenth));
            }
            // a longer prefix begins no more keys
            if begun <= tenth {
                break;
            }
        }
    }
    best.0
}

// A map of keys that stand one after the other. For each key there is where it ends, and its value.
fn from_copy(bytes: &[u8], ends: &[(usize, u64)]) -> Map {
    let mut begin = 0;
    let rows = ends.iter().map(|(end, value)| {
        let key = bytes[begin..*end].to_vec();
        begin = *end;
        (key, *value)
    });
    rows.collect()
}

// What a map is asked as it is filled.
const QUESTIONS: [&str; 15] = [
    "get",
    "get_absent",
    "get_many",
    "get_many_absent",
    "walk",
    "lend",
    "scan",
    "values",
    "range",
    "under",
    "longest",
    "longest_many",
    "first_after",
    "last_before",
    "count",
];

// What the calls of a line answer.
fn answer(line: &str, map: &Map, lists: &Lists) -> u64 {
    match line {
        "get" | "get_many" => found(map, &lists.present),
        "get_absent" | "get_many_absent" => found(map, &lists.absent),
        "walk" | "lend" => walked(map),
        "scan" => scanned(map),
        "values" => summed(map),
        "range" => from_ten(map, lists.few()),
        "under" => under(map, lists.few()),
        "longest" | "longest_many" => longest(map, lists.few()),
        "first_after" => entries_after(map, lists.few()),
        "last_before" => entries_before(map, lists.few()),
        "count" => count(map, lists.prefix),
        _ => unreachable!("{line}"),
    }
}

// How many calls a line has, or over how many entries they go.
fn calls(line: &str, map: &Map, lists: &Lists, answer: u64) -> usize {
    match line {
        "get" | "get_many" => lists.present.len(),
        "get_absent" | "get_many_absent" => lists.absent.len(),
        "walk" | "lend" | "scan" | "values" => map.len(),
        "count" => answer as usize,
        _ => lists.few().len(),
    }
}

// A line on a map of which the line's name says how it came to be.
fn ask(times: bool, state: &str, line: &str, map: &Map, lists: &Lists) {
    let name = format!("{state}{line}");
    let start = Instant::now();
    let answer = answer(line, map, lists);
    report(times, &name, start, calls(line, map, lists, answer), answer);
}

// Copies the bytes of all keys, one key after the other, says how many there are for 1,000 entries,
// and makes a map of them, which is asked, too.
fn time_tree(times: bool, map: &Map, lists: &Lists) {
    let start = Instant::now();
    let mut bytes = Vec::new();
    for key in map.keys() {
        bytes.extend_from_slice(key);
    }
    report(times, "tree_bytes", start, map.len(), map.len() as u64);
    if times {
        println!("tree_size {}", bytes.len() * 1000 / map.len().max(1));
    }
    let mut ends = Vec::new();
    for (key, value) in map {
        let begin = ends.last().map_or(0, |(end, _)| *end);
        ends.push((begin + key.len(), *value));
    }
    let start = Instant::now();
    let read = from_copy(&bytes, &ends);
    report(times, "from_wire", start, read.len(), read.len() as u64);
    for line in ["get", "get_absent", "lend", "scan"] {
        ask(times, "fresh_", line, &read, lists);
    }
}

// The bytes that a line of /proc/self/status names.
fn memory(name: &str) -> u64 {
    let status = std::fs::read_to_string("/proc/self/status").unwrap();
    let line = status.lines().find(|line| line.starts_with(name)).unwrap();
    line.split_ascii_whitespace().nth(1).unwrap().parse::<u64>().unwrap() * 1024
}

fn report(times: bool, name: &str, start: Instant, calls: usize, answer: u64) {
    let nanos = start.elapsed().as_nanos();
    if times {
        println!("{name} {}", nanos / calls.max(1) as u128);
    } else {
        println!("{name} {answer}");
    }
}

// Copies the map, takes a part out of the copy and puts it back, and keeps half of it.
fn time_copies(times: bool, map: &Map, prefix: &[u8]) {
    let start = Instant::now();
    let mut copy = map.clone();
    report(times, "clone", start, map.len(), copy.len() as u64);
    let start = Instant::now();
    report(times, "equals", start, map.len(), u64::from(*map == copy));
    let start = Instant::now();
    let part = split_by_prefix(&mut copy, prefix);
    report(times, "split_by_prefix", start, part.len(), part.len() as u64);
    println!("share {}", part.len() * 1000 / map.len().max(1));
    let mut part = part;
    let start = Instant::now();
    copy.append(&mut part);
    report(times, "merge", start, map.len(), copy.len() as u64);
    let start = Instant::now();
    copy.retain(|_, value| *value & 1 == 0);
    report(times, "retain", start, map.len(), copy.len() as u64);
    let start = Instant::now();
    let count = popped(&mut copy);
    report(times, "pops", start, count as usize, count);
}

// Takes half of the keys out and puts them in again, and then the other half.
fn churn(times: bool, lists: &Lists) {
    let mut map = Map::new();
    put(&mut map, &lists.present);
    let (front, back) = lists.present.split_at(lists.present.len() / 2);
    let rounds = [
        ("churn_remove", "churn_insert", front),
        ("churn_remove_again", "churn_insert_again", back),
    ];
    for (remove, insert, keys) in rounds {
        let start = Instant::now();
        report(times, remove, start, keys.len(), taken(&mut map, keys));
        let start = Instant::now();
        report(times, insert, start, keys.len(), put(&mut map, keys));
    }
    for line in ["get", "get_absent", "walk", "lend"] {
        ask(times, "churned_", line, &map, lists);
    }
}

// Makes a map of keys in their order, twice: std's map has one such call, and ours two.
fn load(times: bool, keys: &[&[u8]]) {
    for line in ["sorted_load", "from_iter"] {
        let start = Instant::now();
        let map: Map = keys.iter().map(|key| (key.to_vec(), 1)).collect();
        report(times, line, start, keys.len(), map.len() as u64);
    }
}

// Makes the union of two sets, and the other sets of it and the second one.
fn unite(times: bool, first: &[&[u8]], second: &[&[u8]]) {
    let first: BTreeSet<Vec<u8>> = first.iter().map(|key| key.to_vec()).collect();
    let second: BTreeSet<Vec<u8>> = second.iter().map(|key| key.to_vec()).collect();
    let start = Instant::now();
    let union: BTreeSet<Vec<u8>> = first.union(&second).cloned().collect();
    report(times, "union", start, union.len(), union.len() as u64);
    let start = Instant::now();
    let both: BTreeSet<Vec<u8>> = union.intersection(&second).cloned().collect();
    report(times, "intersection", start, second.len(), both.len() as u64);
    let start = Instant::now();
    let rest: BTreeSet<Vec<u8>> = union.difference(&second).cloned().collect();
    report(times, "difference", start, union.len(), rest.len() as u64);
    let start = Instant::now();
    report(times, "is_subset", start, second.len(), u64::from(second.is_subset(&union)));
}

// Changes a map that is filled and copies of it, and makes others in the keys' order.
fn measure_rest(times: bool, mut map: Map, lists: &mut Lists) {
    time_tree(times, &map, lists);
    let (count, start) = (map.len(), Instant::now());
    report(times, "values_mut", start, count, raised(&mut map));
    time_copies(times, &map, lists.prefix);
    let start = Instant::now();
    report(times, "remove", start, lists.present.len(), taken(&mut map, &lists.present));
    churn(times, lists);

    lists.present.sort_unstable();
    let mut map = Map::new();
    let start = Instant::now();
    report(times, "insert_sorted", start, lists.present.len(), put(&mut map, &lists.present));
    load(times, &lists.present);
    unite(times, &lists.present, lists.few());
}

// Fills a map and asks it, and then does the rest where no lines are named.
fn measure(times: bool, names: &[String], lists: &mut Lists) {
    let before = memory("VmRSS:");
    let mut map = Map::new();
    let start = Instant::now();
    let new = put(&mut map, &lists.present);
    report(times, "insert", start, lists.present.len(), new);
    let after = memory("VmRSS:");
    let peak = memory("VmHWM:");

    shuffle(&mut lists.present, 3);
    for line in QUESTIONS {
        if names.is_empty() || names.iter().any(|name| name == line) {
            ask(times, "", line, &map, lists);
        }
    }
    if names.is_empty() {
        measure_rest(times, map, lists);
    }
    if times {
        println!("memory {}", after.saturating_sub(before) / new.max(1));
        println!("peak {}", peak.saturating_sub(before) / new.max(1));
    }
}

// Fills a map, removes each half of the keys and inserts it again, three times, and says what
// memory each key takes.
fn report_churn(keys: &[&[u8]]) {
    let before = memory("VmRSS:");
    let each = |name| memory(name).saturating_sub(before) / keys.len().max(1) as u64;
    let mut map = Map::new();
    put(&mut map, keys);
    let filled = each("VmRSS:");
    let (front, back) = keys.split_at(keys.len() / 2);
    for _ in 0..3 {
        for half in [front, back] {
            taken(&mut map, half);
            put(&mut map, half);
        }
    }
    println!("memory {filled}");
    println!("churned_memory {}", each("VmRSS:"));
    println!("churned_peak {}", each("VmHWM:"));
}

// Calls a function at each line of the input that is not empty, as it is read, and says what a call
// takes in time and memory.
fn fill(mut put: impl FnMut(Vec<u8>)) {
    let before = memory("VmRSS:");
    let start = Instant::now();
    let mut lines = 0;
    let mut line = Vec::new();
    let mut reader = BufReader::new(std::io::stdin());
    while reader.read_until(b'\n', &mut line).unwrap() > 0 {
        let key = line.strip_suffix(b"\n").unwrap_or(&line);
        if !key.is_empty() {
            put(key.to_vec());
            lines += 1;
        }
        line.clear();
    }
    report(true, "fill", start, lines, 0);
    println!("keys {lines}");
    println!("memory {}", memory("VmRSS:").saturating_sub(before) / lines.max(1) as u64);
    println!("peak {}", memory("VmHWM:").saturating_sub(before) / lines.max(1) as u64);
}

// Fills a set, or a map with values of the type that a word names.
fn fill_by(word: &str) {
    let (mut set, mut hash_set) = (BTreeSet::new(), HashSet::new());
    let (mut small, mut large, mut bytes) = (BTreeMap::new(), BTreeMap::new(), BTreeMap::new());
    match word {
        "unit" => fill(|key| {
            set.insert(key);
        }),
        "u32" => fill(|key| {
            small.insert(key, 0u32);
        }),
        "bytes" => fill(|key| {
            bytes.insert(key, Vec::<u8>::new());
        }),
        "hash" => fill(|key| {
            hash_set.insert(key);
        }),
        _ => fill(|key| {
            large.insert(key, 0u64);
        }),
    }
}

fn main() {
    let words: Vec<String> = std::env::args().collect();
    if words.get(1).is_some_and(|word| word == "fill") {
        return fill_by(words.get(2).map_or("u64", String::as_str));
    }
    let times = words.get(1).is_some_and(|word| word == "times");
    let mut input = Vec::new();
    std::io::stdin().read_to_end(&mut input).unwrap();
    let (mut present, mut absent) = read_keys(&input);
    present.sort_unstable();
    let prefix = tenth(&present);
    shuffle(&mut present, 1);
    shuffle(&mut absent, 2);
    if words.get(1).is_some_and(|word| word == "churn") {
        return report_churn(&present);
    }
    println!("keys {}", present.len());
    let mut lists = Lists { present, absent, prefix };
    measure(times, words.get(2..).unwrap_or_default(), &mut lists);
}
