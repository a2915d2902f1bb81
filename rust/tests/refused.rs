//! Each request for memory refused in turn: what each call that may run out of memory returns then,
//! and what it leaves. The hook that refuses is there only under `--cfg workbench`.
#![cfg(workbench)]

#[path = "refused/bulk.rs"]
mod bulk;
#[path = "refused/cursors.rs"]
mod cursors;
#[path = "refused/maps.rs"]
mod maps;
#[path = "refused/relocation.rs"]
mod relocation;
#[path = "refused/sets.rs"]
mod sets;
#[path = "refused/silent.rs"]
mod silent;
#[path = "refused/starts.rs"]
mod starts;
#[path = "refused/walks.rs"]
mod walks;

use patricia::workbench::{made, refuse};
use std::collections::BTreeSet;
use std::fmt::Debug;
use std::fs;
use std::path::Path;

/// Makes a state and calls, with the first request refused, with the second one, and so on, and at
/// last with none, and checks each time what is returned and left. An error comes if and only if a
/// request was refused. Returns the number of requests.
fn in_turn<S, R: Debug, E: Debug>(
    make: impl Fn() -> S,
    call: impl Fn(&mut S) -> Result<R, E>,
    check: impl FnMut(S, Result<R, E>),
) -> usize {
    let turns = in_turn_or_without(make, call, check);
    assert_eq!(turns.done_without, 0, "a refused request made no error");
    turns.requests
}

/// How many requests there were, and how many of them the call does without.
struct Turns {
    requests: usize,
    done_without: usize,
}

/// Does as `in_turn`, for a call that does without some memory if it is refused.
fn in_turn_or_without<S, R: Debug, E: Debug>(
    make: impl Fn() -> S,
    call: impl Fn(&mut S) -> Result<R, E>,
    mut check: impl FnMut(S, Result<R, E>),
) -> Turns {
    let mut done_without = 0;
    for number in 1.. {
        let mut state = make();
        refuse(number);
        let result = call(&mut state);
        let is_refused = made() >= number;
        refuse(0);
        assert!(
            is_refused || result.is_ok(),
            "{result:?} with nothing refused"
        );
        done_without += usize::from(is_refused && result.is_ok());
        check(state, result);
        if !is_refused {
            return Turns {
                requests: number - 1,
                done_without,
            };
        }
    }
    unreachable!("there is no end of numbers")
}

/// The `pub fn try_` of a source, each with the type of the `impl` in which it is.
fn calls_of(source: &str) -> BTreeSet<(String, String)> {
    let mut calls = BTreeSet::new();
    let mut of = String::new();
    for line in source.lines() {
        if let Some(rest) = line.strip_prefix("impl") {
            let rest = rest.rsplit(" for ").next().unwrap_or(rest);
            let start = if rest.starts_with('<') {
                rest.find("> ").unwrap() + 2
            } else {
                0
            };
            let name = rest[start..].trim_start().split(['<', ' ']).next().unwrap();
            of = name.to_string();
        }
        if let Some(rest) = line.trim_start().strip_prefix("pub fn try_") {
            let name = rest.split(['<', '(']).next().unwrap();
            calls.insert((of.clone(), format!("try_{name}")));
        }
    }
    calls
}

/// The sources in a folder and below it, without those that are proved.
fn sources(folder: &Path, found: &mut Vec<(String, String)>) {
    for entry in fs::read_dir(folder).unwrap() {
        let path = entry.unwrap().path();
        if path.is_dir() && !path.ends_with("proved") {
            sources(&path, found);
        } else if path.extension().is_some_and(|extension| extension == "rs") {
            let name = path.strip_prefix(env!("CARGO_MANIFEST_DIR")).unwrap();
            let text = fs::read_to_string(&path).unwrap();
            found.push((name.display().to_string(), text));
        }
    }
}

/// The texts between a comment `// calls of NAME` and the next one.
fn parts(text: &str, name: &str) -> String {
    let texts = text.split("// calls of ").skip(1);
    let of = |text: &&str| text.lines().next() == Some(name);
    texts.filter(of).collect()
}

#[test]
fn each_call_is_tested() {
    let folder = Path::new(env!("CARGO_MANIFEST_DIR"));
    let mut texts = Vec::new();
    sources(&folder.join("tests/refused"), &mut texts);
    let tests: String = texts.into_iter().map(|(_, text)| text).collect();
    let mut files = Vec::new();
    sources(&folder.join("src"), &mut files);
    let mut count = 0;
    for (file, source) in files {
        let module = if file.contains("set") { "set" } else { "map" };
        for (of, call) in calls_of(&source) {
            let tests = parts(&tests, &format!("{module}::{of}"));
            let is_named = [format!(".{call}("), format!("::{call}(")];
            let is_named = is_named.iter().any(|call| tests.contains(call));
            assert!(is_named, "{file}: {of}::{call} is not tested");
            count += 1;
        }
    }
    assert!(count > 70, "{count} calls");
}
