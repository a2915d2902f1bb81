//! The lines of the binding's page: maps of texts that were collected, and that keys were inserted
//! into. std's map clones the keys that this crate's map makes.

use crate::sheet::{Map, Sheet};
use patricia::StringPatriciaMap;
use std::collections::BTreeMap;
use std::hint::black_box;
use std::iter;

fn entries(keys: &[String]) -> impl Iterator<Item = (String, usize)> {
    keys.iter().cloned().zip(0..)
}

/// Counts what an iterator returns.
fn count<T>(entries: impl Iterator<Item = T>) -> usize {
    entries.map(black_box).count()
}

/// Some prefixes of keys.
fn prefixes(keys: &[String]) -> impl Iterator<Item = &str> {
    keys.iter().step_by(1000).filter_map(|key| key.get(..8))
}

/// A map of the entries that a map's type collects.
fn collected<M: FromIterator<(String, usize)>>(keys: &[String]) -> M {
    entries(keys).collect()
}

/// A map into which the entries are inserted.
fn inserted<M: Default + Extend<(String, usize)>>(keys: &[String]) -> M {
    let mut map = M::default();
    map.extend(entries(keys));
    map
}

/// Both maps are made, and dropped; the lines that read are of maps that were not dropped.
pub fn ours(sheet: &mut Sheet, keys: &[String]) {
    type Texts = StringPatriciaMap<usize>;
    sheet.time(Map::Ours, "collect", keys.len(), || {
        drop(collected::<Texts>(keys))
    });
    ours_read(sheet, keys, "collected", collected(keys));
    sheet.time(Map::Ours, "insert", keys.len(), || {
        drop(inserted::<Texts>(keys))
    });
    ours_read(sheet, keys, "inserted", inserted(keys));
}

pub fn std(sheet: &mut Sheet, keys: &[String]) {
    type Texts = BTreeMap<String, usize>;
    sheet.time(Map::Std, "collect", keys.len(), || {
        drop(collected::<Texts>(keys))
    });
    std_read(sheet, keys, "collected", collected(keys));
    sheet.time(Map::Std, "insert", keys.len(), || {
        drop(inserted::<Texts>(keys))
    });
    std_read(sheet, keys, "inserted", inserted(keys));
}

fn ours_read(sheet: &mut Sheet, keys: &[String], how: &str, mut map: StringPatriciaMap<usize>) {
    let n = keys.len();
    let line = |name: &str| format!("{name}, {how}");
    sheet.time(Map::Ours, &line("get"), n, || {
        count(keys.iter().map(|key| map.get(key)))
    });
    sheet.time(Map::Ours, &line("values"), n, || count(map.values()));
    sheet.time(Map::Ours, &line("cursor"), n, || {
        let mut cursor = map.cursor();
        count(iter::from_fn(|| cursor.advance().then(|| cursor.value())))
    });
    sheet.time(Map::Ours, &line("iter"), n, || count(map.iter()));
    let listed = prefixes(keys).map(|prefix| map.count_prefix(prefix)).sum();
    sheet.time(Map::Ours, &line("iter_prefix"), listed, || {
        prefixes(keys)
            .map(|prefix| count(map.iter_prefix(prefix)))
            .sum::<usize>()
    });
    sheet.time(Map::Ours, &line("iter_mut"), n, || count(map.iter_mut()));
}

fn std_read(sheet: &mut Sheet, keys: &[String], how: &str, mut map: BTreeMap<String, usize>) {
    let n = keys.len();
    let line = |name: &str| format!("{name}, {how}");
    sheet.time(Map::Std, &line("get"), n, || {
        count(keys.iter().map(|key| map.get(key)))
    });
    sheet.time(Map::Std, &line("values"), n, || count(map.values()));
    sheet.time(Map::Std, &line("cursor"), n, || count(map.iter()));
    sheet.time(Map::Std, &line("iter"), n, || {
        count(map.iter().map(|(key, value)| (key.clone(), value)))
    });
    let under = |prefix: &str| {
        let from = map.range(prefix.to_string()..);
        let begun = prefix.to_string();
        let within = from.take_while(move |entry| entry.0.starts_with(&begun));
        count(within.map(|(key, value)| (key.clone(), value)))
    };
    let listed = prefixes(keys).map(under).sum();
    sheet.time(Map::Std, &line("iter_prefix"), listed, || {
        prefixes(keys).map(under).sum::<usize>()
    });
    sheet.time(Map::Std, &line("iter_mut"), n, || {
        count(map.iter_mut().map(|(key, value)| (key.clone(), value)))
    });
}
