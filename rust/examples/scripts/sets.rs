//! The calls of a set.

use crate::encodings::{self, Encoded};
use crate::words::{drained, key, keys, number, shown, written};
use crate::{Answering, Kind};
use patricia::map::Cursor;
use patricia::{BorrowedBytes, DecodeError, GenericPatriciaSet, WireError};
use std::mem;

/// A set that answers calls.
pub struct Set<K>(GenericPatriciaSet<K>);

impl<K> Default for Set<K> {
    fn default() -> Self {
        Set(GenericPatriciaSet::new())
    }
}

impl<K: Kind> Answering for Set<K> {
    const CALLS: &'static [&'static str] = &[
        "insert",
        "remove",
        "pop_first",
        "pop_last",
        "cut",
        "clear",
        "take",
        "extend",
        "from_iter",
        "load",
        "same",
        "retain",
        "fronts",
        "open",
        "open_wide",
        "union",
        "intersection",
        "difference",
        "subset",
        "disjoint",
        "read",
        "read_wide",
        "iter",
        "cursor",
        "range",
        "cursor_range",
        "split",
        "split_off",
        "clone",
        "twin",
        "part",
        "tree",
        "tree_wide",
        "size",
        "size_wide",
        "reload",
        "reload_wide",
        "contains",
        "len",
        "empty",
        "itself",
        "debug",
        "wide",
        "longest",
        "reach",
        "under",
        "cursor_prefix",
        "ends",
        "beside",
        "count",
        "fold",
    ];

    fn answer(&mut self, call: &str, words: &[Vec<u8>]) -> Option<Vec<String>> {
        self.change(call, words)
            .or_else(|| self.take_many(call, words))
            .or_else(|| self.part(call, words))
            .or_else(|| encodings::answer(self, call, words))
            .or_else(|| self.compare(call, words))
            .or_else(|| self.ask(call, words))
            .or_else(|| self.ask_each(call, words))
    }
}

fn element<K: Kind>(key: K) -> String {
    written(key.as_ref().as_bytes())
}

fn elements<K: Kind>(walk: impl Iterator<Item = K>) -> Vec<String> {
    drained(walk).into_iter().map(element).collect()
}

// What a cursor lends, which lends nothing after its end.
fn lent<K: Kind>(mut cursor: Cursor<'_, K, ()>) -> Vec<String> {
    let mut elements = Vec::new();
    while cursor.advance() {
        elements.push(written(cursor.key().expect("an element").as_bytes()));
    }
    assert!(!cursor.advance() && cursor.key().is_none());
    elements
}

impl<K: Kind> Encoded for Set<K> {
    type Values = usize;

    fn len(&self) -> usize {
        self.0.len()
    }

    fn rows(&self) -> Vec<String> {
        elements(self.0.iter())
    }

    fn encode(&self, is_wide: bool) -> Result<Vec<u8>, WireError> {
        match is_wide {
            true => self.0.try_wide_tree_bytes(),
            false => self.0.try_tree_bytes(),
        }
    }

    fn decode(tree: &[u8], is_wide: bool, values: usize) -> Result<Self, DecodeError> {
        let set = match is_wide {
            true => GenericPatriciaSet::try_from_wide_tree_bytes(tree, values),
            false => GenericPatriciaSet::from_tree_bytes(tree, values),
        };
        set.map(Set)
    }

    fn values(&self) -> usize {
        self.0.len()
    }

    fn given(words: &[Vec<u8>]) -> usize {
        number(&words[0]) as usize
    }

    fn numbers(count: u64) -> usize {
        count as usize
    }
}

impl<K: Kind> Set<K> {
    fn counted(&self, count: impl ToString) -> Vec<String> {
        [vec![count.to_string()], self.rows()].concat()
    }

    fn change(&mut self, call: &str, words: &[Vec<u8>]) -> Option<Vec<String>> {
        let (set, keys) = (&mut self.0, keys::<K>(words).into_iter());
        Some(match call {
            "insert" => keys
                .map(|key| set.try_insert(key).expect("memory").to_string())
                .collect(),
            "remove" => keys.map(|key| set.remove(key).to_string()).collect(),
            "pop_first" => vec![shown(set.pop_first().map(element))],
            "pop_last" => vec![shown(set.try_pop_last().expect("memory").map(element))],
            "cut" => vec![set.remove_prefix(key::<K>(&words[0])?).to_string()],
            "clear" => {
                set.clear();
                vec![]
            }
            "take" => elements(mem::take(set).into_iter()),
            _ => return None,
        })
    }

    fn take_many(&mut self, call: &str, words: &[Vec<u8>]) -> Option<Vec<String>> {
        let (set, mut count) = (&mut self.0, 0);
        let keys = keys::<K>(words).into_iter();
        Some(match call {
            "extend" => {
                set.extend(keys.inspect(|_| count += 1));
                self.counted(count)
            }
            "from_iter" => {
                *set = keys.collect();
                self.rows()
            }
            "load" => {
                // how many entries the call takes from an iterator past a fault is not said
                let before = set.len();
                let loaded = set.try_sorted_load(keys);
                let count = set.len() - before;
                match loaded {
                    Ok(()) => self.counted(count),
                    Err(fault) => self.counted(format!("{} {fault}", count + 1)),
                }
            }
            "same" => vec![(*set == keys.collect()).to_string()],
            "retain" => {
                set.retain(|element| {
                    count += 1;
                    element.as_bytes().len() as u64 >= number(&words[0])
                });
                self.counted(count)
            }
            "fronts" => {
                for word in words {
                    set.extend((1..=word.len()).filter_map(|n| key::<K>(&word[..n])));
                }
                vec![]
            }
            _ => return None,
        })
    }

    fn part(&mut self, call: &str, words: &[Vec<u8>]) -> Option<Vec<String>> {
        let (set, prefix) = (&mut self.0, words.first().and_then(|word| key::<K>(word)));
        let taken = match call {
            "clone" => set.clone(),
            "twin" => {
                *set = set.try_clone().expect("memory");
                return Some(vec![set.len().to_string()]);
            }
            "split" | "split_off" => set.split_by_prefix(prefix?),
            "part" => set.try_split_by_prefix(prefix?).expect("memory"),
            _ => return None,
        };
        if call == "part" {
            let left = mem::replace(set, taken);
            return Some(vec![set.len().to_string(), left.len().to_string()]);
        }
        let parts = [elements(taken.iter()), vec!["and".to_string()], self.rows()];
        if call != "split" {
            self.0 = taken;
        }
        Some(parts.concat())
    }

    fn compare(&self, call: &str, words: &[Vec<u8>]) -> Option<Vec<String>> {
        let (set, other) = (&self.0, keys::<K>(words).into_iter().collect());
        Some(match call {
            "union" => elements(set.union(&other).iter()),
            "intersection" => elements(set.try_intersection(&other).expect("memory").iter()),
            "difference" => elements(set.difference(&other).iter()),
            "subset" => vec![set.is_subset(&other).to_string()],
            "disjoint" => vec![set.is_disjoint(&other).to_string()],
            _ => return None,
        })
    }

    fn ask(&self, call: &str, words: &[Vec<u8>]) -> Option<Vec<String>> {
        let (set, keys) = (&self.0, keys::<K>(words));
        Some(match (call, keys.as_slice()) {
            ("iter", _) => self.rows(),
            ("cursor", _) => lent(set.cursor()),
            ("range", [start]) => elements(set.range(*start..)),
            ("range", [start, end]) => elements(set.range(*start..*end)),
            ("cursor_range", [start]) => lent(set.cursor_from(start)),
            ("cursor_range", [start, end]) => lent(set.cursor_range(*start..*end)),
            ("len", _) => vec![set.len().to_string()],
            ("empty", _) => vec![set.is_empty().to_string()],
            ("itself", _) => vec![set.try_equals(set).expect("memory").to_string()],
            ("debug", _) => vec![K::debug(set, false)],
            ("wide", _) => vec![K::debug(set, true)],
            ("ends", _) => vec![
                shown(set.first().map(element)),
                shown(set.last().map(element)),
            ],
            _ => return None,
        })
    }

    fn ask_each(&self, call: &str, words: &[Vec<u8>]) -> Option<Vec<String>> {
        let (set, keys) = (&self.0, keys::<K>(words).into_iter());
        let longest = |key: &K::Part| {
            set.get_longest_common_prefix(key)
                .map(|x| written(x.as_bytes()))
        };
        Some(match call {
            "contains" => keys.map(|key| set.contains(key).to_string()).collect(),
            "longest" => keys.map(|key| shown(longest(key))).collect(),
            "reach" => keys
                .map(|key| set.longest_common_prefix_len(key).to_string())
                .collect(),
            "under" => keys
                .flat_map(|key| elements(set.iter_prefix(key)))
                .collect(),
            "cursor_prefix" => keys.flat_map(|key| lent(set.cursor_prefix(key))).collect(),
            "beside" => keys
                .flat_map(|key| [set.last_before(key), set.first_after(key)])
                .map(|found| shown(found.map(element)))
                .collect(),
            "count" => keys.map(|key| set.count_prefix(key).to_string()).collect(),
            "fold" => keys.map(|prefix| self.folded(prefix)).collect(),
            _ => return None,
        })
    }

    // A number that tells in which order a closure is called at the elements. None is offered for
    // those under a prefix, which a cursor lends.
    fn folded(&self, prefix: &K::Part) -> String {
        let mut folded: u64 = 0;
        let mut step = |len: usize| folded = folded.wrapping_mul(31).wrapping_add(len as u64);
        if prefix.is_empty() {
            self.0.for_each(|element| step(element.as_bytes().len()));
        } else {
            let mut cursor = self.0.cursor_prefix(prefix);
            while cursor.advance() {
                step(cursor.key_bytes().map_or(0, <[u8]>::len));
            }
        }
        folded.to_string()
    }
}
