//! The calls of a map.

use crate::encodings::{self, Encoded};
use crate::words::{drained, key, keys, number, pairs, row, shown, written};
use crate::{Answering, Kind, key_calls};
use patricia::map::Cursor;
use patricia::{BorrowedBytes, DecodeError, GenericPatriciaMap, WireError};
use std::mem;

/// A map that answers calls.
pub struct Map<K>(GenericPatriciaMap<K, u64>);

impl<K> Default for Map<K> {
    fn default() -> Self {
        Map(GenericPatriciaMap::new())
    }
}

impl<K: Kind> Answering for Map<K> {
    const CALLS: &'static [&'static str] = &[
        "insert",
        "remove",
        "pop_first",
        "pop_last",
        "cut",
        "clear",
        "take",
        "fill",
        "update",
        "get_or_insert",
        "raise",
        "lend",
        "kept",
        "extend",
        "from_iter",
        "merge",
        "load",
        "same",
        "retain",
        "fronts",
        "open",
        "open_wide",
        "read",
        "read_wide",
        "iter",
        "keys",
        "values",
        "cursor",
        "begin",
        "range",
        "cursor_range",
        "under",
        "cursor_prefix",
        "within",
        "split",
        "split_off",
        "clone",
        "twin",
        "part",
        "tree",
        "tree_wide",
        "size",
        "size_wide",
        "reload",
        "reload_wide",
        "get",
        "contains",
        "len",
        "empty",
        "itself",
        "debug",
        "wide",
        "longest",
        "reach",
        "along",
        "along_values",
        "along_owned",
        "ends",
        "beside",
        "count",
        "fold",
        "floor",
        "copy",
        "common",
        "first",
        "halves",
    ];

    fn answer(&mut self, call: &str, words: &[Vec<u8>]) -> Option<Vec<String>> {
        self.change(call, words)
            .or_else(|| self.change_values(call, words))
            .or_else(|| self.take_many(call, words))
            .or_else(|| self.part(call, words))
            .or_else(|| encodings::answer(self, call, words))
            .or_else(|| self.walk(call, words))
            .or_else(|| self.ask(call, words))
            .or_else(|| self.ask_prefixes(call, words))
            .or_else(|| self.ask_order(call, words))
            .or_else(|| key_calls::answer::<K>(call, words))
    }
}

fn entry<K: Kind>((key, value): (K, u64)) -> String {
    row(key.as_ref().as_bytes(), value)
}

fn entries<'a, K: Kind>(walk: impl Iterator<Item = (K, &'a u64)>) -> Vec<String> {
    let entries = drained(walk).into_iter();
    entries.map(|(key, value)| entry((key, *value))).collect()
}

// What a cursor lends, which lends nothing after its end.
fn lent<K: Kind>(mut cursor: Cursor<'_, K, u64>) -> Vec<String> {
    let mut entries = Vec::new();
    while cursor.advance() {
        let (key, value) = (cursor.key_bytes(), cursor.value());
        entries.push(row(key.expect("a key"), *value.expect("a value")));
    }
    assert!(!cursor.advance() && cursor.key().is_none() && cursor.value().is_none());
    entries
}

fn first<K: Kind>(found: Option<(K, &u64)>) -> String {
    shown(found.map(|(key, value)| entry((key, *value))))
}

impl<K: Kind> Encoded for Map<K> {
    type Values = Vec<u64>;

    fn len(&self) -> usize {
        self.0.len()
    }

    fn rows(&self) -> Vec<String> {
        entries(self.0.iter())
    }

    fn encode(&self, is_wide: bool) -> Result<Vec<u8>, WireError> {
        match is_wide {
            true => self.0.try_wide_tree_bytes(),
            false => self.0.try_tree_bytes(),
        }
    }

    fn decode(tree: &[u8], is_wide: bool, values: Vec<u64>) -> Result<Self, DecodeError> {
        let map = match is_wide {
            true => GenericPatriciaMap::from_wide_tree_bytes(tree, values),
            false => GenericPatriciaMap::try_from_tree_bytes(tree, values),
        };
        map.map(Map)
    }

    fn values(&self) -> Vec<u64> {
        self.0.values().copied().collect()
    }

    fn given(words: &[Vec<u8>]) -> Vec<u64> {
        words.iter().map(|word| number(word)).collect()
    }

    fn numbers(count: u64) -> Vec<u64> {
        (1..=count).collect()
    }
}

impl<K: Kind> Map<K> {
    fn counted(&self, count: impl ToString) -> Vec<String> {
        [vec![count.to_string()], self.rows()].concat()
    }

    fn change(&mut self, call: &str, words: &[Vec<u8>]) -> Option<Vec<String>> {
        let map = &mut self.0;
        Some(match call {
            "insert" => pairs::<K>(words)
                .into_iter()
                .map(|(key, value)| shown(map.try_insert(key, value).expect("memory")))
                .collect(),
            "remove" => keys::<K>(words)
                .into_iter()
                .map(|key| shown(map.remove(key)))
                .collect(),
            "pop_first" => vec![shown(map.try_pop_first().expect("memory").map(entry))],
            "pop_last" => vec![shown(map.pop_last().map(entry))],
            "cut" => vec![map.remove_prefix(key::<K>(&words[0])?).to_string()],
            "clear" => {
                map.clear();
                vec![]
            }
            "fronts" => self.put_fronts(words),
            "take" => drained(mem::take(map).into_iter())
                .into_iter()
                .map(entry)
                .collect(),
            _ => return None,
        })
    }

    fn change_values(&mut self, call: &str, words: &[Vec<u8>]) -> Option<Vec<String>> {
        let map = &mut self.0;
        if call == "raise" {
            let raised = |(key, value): (K, &mut u64)| {
                let more = value.saturating_add(number(&words[0]));
                entry((key, mem::replace(value, more)))
            };
            return Some(map.iter_mut().map(raised).collect());
        }
        if call == "kept" {
            let key = key::<K>(&words[0])?;
            let map = mem::take(map);
            let longest = map.get_longest_common_prefix(key).map(|(front, _)| front);
            let shortest = map.common_prefixes(key).next().map(|(front, _)| front);
            drop(map);
            let kept = [longest, shortest];
            return Some(
                kept.map(|front| shown(front.map(|front| written(front.as_bytes()))))
                    .to_vec(),
            );
        }
        let one: fn(&mut GenericPatriciaMap<K, u64>, &K::Part, u64) -> String = match call {
            "fill" => |map, key, value| map.insert_with(key, || value).to_string(),
            "update" => |map, key, value| shown(map.update(key, |old| mem::replace(old, value))),
            "get_or_insert" => |map, key, value| {
                let old = map.try_get_or_insert_with(key, || 0).expect("memory");
                mem::replace(old, value).to_string()
            },
            "lend" => |map, key, value| {
                let lent = map.get_longest_common_prefix_mut(key);
                shown(lent.map(|(front, old)| row(front.as_bytes(), mem::replace(old, value))))
            },
            _ => return None,
        };
        let pairs = pairs::<K>(words).into_iter();
        Some(pairs.map(|(key, value)| one(map, key, value)).collect())
    }

    fn take_many(&mut self, call: &str, words: &[Vec<u8>]) -> Option<Vec<String>> {
        let (map, mut count) = (&mut self.0, 0);
        let pairs = pairs::<K>(words).into_iter();
        Some(match call {
            "extend" => {
                map.extend(pairs.inspect(|_| count += 1));
                self.counted(count)
            }
            "from_iter" => {
                *map = pairs.collect();
                self.rows()
            }
            "merge" => {
                map.merge_with(pairs.collect(), |value, new| {
                    count += 1;
                    *value = new.max(*value);
                });
                self.counted(count)
            }
            "load" => {
                // how many entries the call takes from an iterator past a fault is not said
                let before = map.len();
                let loaded = map.sorted_load(pairs);
                let count = map.len() - before;
                match loaded {
                    Ok(()) => self.counted(count),
                    Err(fault) => self.counted(format!("{} {fault}", count + 1)),
                }
            }
            "same" => vec![(*map == pairs.collect()).to_string()],
            "retain" => {
                map.retain(|_, value| {
                    count += 1;
                    *value >= number(&words[0])
                });
                self.counted(count)
            }
            _ => return None,
        })
    }

    fn put_fronts(&mut self, words: &[Vec<u8>]) -> Vec<String> {
        for word in words {
            let fronts = (1..=word.len()).map(|n| (key::<K>(&word[..n]), n as u64));
            self.0.extend(fronts.filter_map(|(key, n)| Some((key?, n))));
        }
        vec![]
    }

    fn part(&mut self, call: &str, words: &[Vec<u8>]) -> Option<Vec<String>> {
        let (map, prefix) = (&mut self.0, words.first().and_then(|word| key::<K>(word)));
        let taken = match call {
            "clone" => map.clone(),
            "twin" => {
                *map = map.try_clone().expect("memory");
                return Some(vec![map.len().to_string()]);
            }
            "split" | "split_off" => map.split_by_prefix(prefix?),
            "part" => map.try_split_by_prefix(prefix?).expect("memory"),
            _ => return None,
        };
        if call == "part" {
            let left = mem::replace(map, taken);
            return Some(vec![map.len().to_string(), left.len().to_string()]);
        }
        let parts = [entries(taken.iter()), vec!["and".to_string()], self.rows()];
        if call != "split" {
            self.0 = taken;
        }
        Some(parts.concat())
    }

    fn walk(&self, call: &str, words: &[Vec<u8>]) -> Option<Vec<String>> {
        let (map, keys) = (&self.0, keys::<K>(words));
        let written = |key: K| written(key.as_ref().as_bytes());
        Some(match (call, keys.as_slice()) {
            ("iter", _) => self.rows(),
            ("keys", _) => drained(map.keys()).into_iter().map(written).collect(),
            ("values", _) => drained(map.values())
                .iter()
                .map(ToString::to_string)
                .collect(),
            ("cursor", _) => lent(map.cursor()),
            ("begin", _) => {
                let mut cursor = map.cursor();
                let is_lent = cursor.advance();
                let lent = is_lent.then(|| {
                    row(
                        cursor.key_bytes().expect("a key"),
                        cursor.value().copied().expect("a value"),
                    )
                });
                vec![
                    first(map.iter().next()),
                    shown(map.keys().next().map(written)),
                    shown(map.values().next()),
                    shown(lent),
                    shown(map.clone().into_iter().next().map(entry)),
                ]
            }
            ("range", [start]) => entries(map.range(*start..)),
            ("range", [start, end]) => entries(map.range(*start..*end)),
            ("cursor_range", [start]) => lent(map.cursor_from(start)),
            ("cursor_range", [start, end]) => lent(map.cursor_range(*start..*end)),
            ("under", [prefix]) => entries(map.iter_prefix(prefix)),
            ("cursor_prefix", [prefix]) => lent(map.cursor_prefix(prefix)),
            ("within", [key, ..]) => entries(map.within(*key, number(&words[1]) as u32)),
            _ => return None,
        })
    }

    fn ask(&self, call: &str, words: &[Vec<u8>]) -> Option<Vec<String>> {
        let (map, keys) = (&self.0, keys::<K>(words));
        Some(match call {
            "get" => {
                let many = map.get_many(&keys);
                assert!(
                    keys.iter()
                        .zip(&many)
                        .all(|(key, found)| map.get(key) == *found)
                );
                many.into_iter().map(shown).collect()
            }
            "contains" => keys
                .into_iter()
                .map(|key| map.contains_key(key).to_string())
                .collect(),
            "len" => vec![map.len().to_string()],
            "empty" => vec![map.is_empty().to_string()],
            "itself" => vec![map.try_equals(map).expect("memory").to_string()],
            "debug" => vec![K::debug(map, false)],
            "wide" => vec![K::debug(map, true)],
            _ => return None,
        })
    }

    fn ask_prefixes(&self, call: &str, words: &[Vec<u8>]) -> Option<Vec<String>> {
        let (map, keys) = (&self.0, keys::<K>(words));
        let front = |(key, value): (&K::Part, &u64)| row(key.as_bytes(), *value);
        Some(match (call, keys.as_slice()) {
            ("longest", keys) => {
                let many = map.longest_many(keys).into_iter();
                let one = |key: &&K::Part| map.get_longest_common_prefix(*key).map(front);
                let many: Vec<_> = many.map(|found| found.map(front)).collect();
                assert!(keys.iter().map(one).eq(many.iter().cloned()));
                many.into_iter().map(shown).collect()
            }
            ("reach", keys) => keys
                .iter()
                .map(|key| map.longest_common_prefix_len(*key).to_string())
                .collect(),
            ("along", [key]) => drained(map.common_prefixes(*key))
                .into_iter()
                .map(front)
                .collect(),
            ("along_values", [key]) => drained(map.common_prefix_values(*key))
                .iter()
                .map(ToString::to_string)
                .collect(),
            ("along_owned", [key]) => drained(map.common_prefix_values_owned((*key).to_owned()))
                .iter()
                .map(ToString::to_string)
                .collect(),
            _ => return None,
        })
    }

    fn ask_order(&self, call: &str, words: &[Vec<u8>]) -> Option<Vec<String>> {
        let (map, keys) = (&self.0, keys::<K>(words).into_iter());
        Some(match call {
            "ends" => {
                let last = map.try_last_key_value().expect("memory");
                vec![first(map.first_key_value()), first(last)]
            }
            "beside" => keys
                .flat_map(|key| [first(map.last_before(key)), first(map.first_after(key))])
                .collect(),
            "count" => keys.map(|key| map.count_prefix(key).to_string()).collect(),
            "fold" => keys.map(|prefix| self.folded(prefix)).collect(),
            _ => return None,
        })
    }

    // A number that tells in which order a closure is called at the values under a prefix.
    fn folded(&self, prefix: &K::Part) -> String {
        let mut folded: u64 = 0;
        let step = |_: &K::Part, value: &u64| folded = folded.wrapping_mul(31).wrapping_add(*value);
        if prefix.is_empty() {
            self.0.for_each(step);
        } else {
            self.0.for_each_prefix(prefix, step);
        }
        folded.to_string()
    }
}
