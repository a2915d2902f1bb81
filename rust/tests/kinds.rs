//! Kinds of keys of users: lawful ones against std's ordered map, and kinds that break the law of
//! `BorrowedBytes`, each in its own way. With these, calls may answer wrongly or panic, but each
//! comes to an end, nothing aborts, and a map can be dropped after any panic.

#[path = "kinds/calls.rs"]
mod calls;
#[path = "kinds/faults.rs"]
mod faults;
#[path = "kinds/lawful.rs"]
mod lawful;
#[path = "kinds/memory.rs"]
mod memory;

use calls::{Place, Random};
use faults::{Kind, LAWFUL, choose};
use std::cell::Cell;
use std::cmp::Ordering;
use std::panic::{self, AssertUnwindSafe};
use std::sync::Once;
use std::sync::mpsc::{self, RecvTimeoutError};
use std::thread;
use std::time::Duration;

/// How long the calls with one kind may take: far longer than they do on a busy machine.
const LIMIT: Duration = Duration::from_secs(300);

/// How many lists of calls there are for a kind, and how many calls are in each.
const LISTS: u64 = 60;
const CALLS: usize = 300;

/// The name of the threads whose panics are expected, and not printed.
const LAWLESS: &str = "lawless";

thread_local! {
    static COUNT: Cell<usize> = const { Cell::new(0) };
}

/// How many times this thread has asked before.
fn count() -> usize {
    COUNT.set(COUNT.get().wrapping_add(1));
    COUNT.get()
}

/// A number below `n` that looks random.
fn chance(n: usize) -> usize {
    Random(count() as u64).below(n)
}

/// Leaves out what the lawless threads say of their panics.
fn hush() {
    static HUSHED: Once = Once::new();
    HUSHED.call_once(|| {
        let usual = panic::take_hook();
        panic::set_hook(Box::new(move |info| {
            if thread::current().name() != Some(LAWLESS) {
                usual(info);
            }
        }));
    });
}

/// Makes lists of random calls, and returns how many of them panicked.
fn run(kind: Kind) -> usize {
    choose(kind);
    let mut panics = 0;
    for list in 0..LISTS {
        let mut random = Random(list << 32);
        let mut place = Place::new();
        for _ in 0..CALLS {
            let call = AssertUnwindSafe(|| place.call(&mut random));
            panics += usize::from(panic::catch_unwind(call).is_err());
        }
        let dropped = panic::catch_unwind(AssertUnwindSafe(|| drop(place)));
        assert!(dropped.is_ok(), "a drop panicked");
    }
    panics
}

/// Does as `run` in a thread of its own, and fails if it takes too long.
fn watched(kind: Kind) -> usize {
    hush();
    let (sender, receiver) = mpsc::channel();
    let thread = thread::Builder::new().name(LAWLESS.to_string());
    let thread = thread.spawn(move || {
        let panics = run(kind);
        sender.send(()).expect("the test waits");
        panics
    });
    let thread = thread.expect("a thread can be made");
    match receiver.recv_timeout(LIMIT) {
        Err(RecvTimeoutError::Timeout) => panic!("some call did not come to an end"),
        _ => thread.join().expect("a drop does not panic"),
    }
}

/// Makes a test of a kind whose fields differ from those of a lawful one.
macro_rules! lawless {
    ($($test:ident { $($field:ident: $value:expr),* $(,)? })*) => {$(
        #[test]
        fn $test() {
            watched(Kind { $($field: $value,)* ..LAWFUL });
        }
    )*};
}

#[test]
fn lawful_kinds_do_not_panic() {
    assert_eq!(watched(LAWFUL), 0);
    assert_eq!(watched(Kind { width: 2, ..LAWFUL }), 0);
}

#[test]
fn panics_of_a_kind_are_caught() {
    let enter = || panic!("a method panics");
    let panics = watched(Kind { enter, ..LAWFUL });
    assert!(panics > LISTS as usize * CALLS / 2, "{panics} panics");
}

lawless! {
    strips_one_byte_too_few {
        stripped: |_, shared| shared.saturating_sub(1),
    }
    strips_nothing {
        stripped: |_, _| 0,
    }
    strips_one_byte_too_many {
        stripped: |len, shared| len.min(shared + 1),
    }
    strips_all {
        stripped: |len, _| len,
    }
    strips_inside_an_item {
        width: 2,
        stripped: |len, shared| len.min(shared + 1),
    }
    strips_back_into_an_item {
        width: 2,
        stripped: |_, shared| shared.saturating_sub(1),
    }
    strips_any_number {
        stripped: |len, _| chance(len + 1),
    }
    says_that_nothing_is_stripped {
        said: |_| 0,
    }
    says_that_more_is_stripped {
        said: |stripped| stripped + 1,
    }
    says_that_very_much_is_stripped {
        said: |stripped| usize::MAX - stripped,
    }
    orders_items_in_reverse {
        order: |order| order.reverse(),
    }
    takes_items_for_equal {
        order: |_| Ordering::Equal,
    }
    takes_items_for_less {
        order: |_| Ordering::Less,
    }
    takes_items_for_greater {
        order: |_| Ordering::Greater,
    }
    orders_items_in_any_way {
        order: |_| [Ordering::Less, Ordering::Equal, Ordering::Greater][chance(3)],
    }
    cuts_nothing {
        cut: |_, _| 0,
    }
    cuts_one_byte_too_few {
        cut: |_, n| n.saturating_sub(1),
    }
    cuts_one_byte_too_many {
        cut: |len, n| len.min(n + 1),
    }
    cuts_all {
        cut: |len, _| len,
    }
    keeps_nothing {
        kept: |_, _| 0,
    }
    keeps_all {
        kept: |len, _| len,
    }
    cuts_and_keeps_any_number {
        cut: |len, _| chance(len + 1),
        kept: |len, _| chance(len + 1),
    }
    makes_empty_keys {
        made_of: |_| &[],
    }
    makes_shorter_keys {
        made_of: |bytes| &bytes[..bytes.len().saturating_sub(1)],
    }
    makes_one_key {
        made_of: |_| &[7, 0, 7],
    }
    has_shorter_bytes_at_times {
        bytes: |key| &key[..key.len().saturating_sub(count() % 2)],
    }
    has_no_bytes_at_times {
        bytes: |key| &key[..key.len() * (count() % 3).min(1)],
    }
    has_other_bytes_at_times {
        bytes: |key| [key, &[0, 7], &[7, 7, 7, 7]][count() % 3],
    }
    has_more_and_more_bytes {
        bytes: |_| { static ZEROS: [u8; 300] = [0; 300];
&ZEROS[..count() % 300] },
    }
    has_no_valid_bytes {
        is_valid: |_| false,
    }
    has_valid_bytes_at_times {
        is_valid: |_| chance(2) == 0,
    }
    floors_behind_the_end {
        floor: |len| len + 1,
    }
    floors_far_behind_the_end {
        floor: |_| usize::MAX,
    }
    floors_at_the_start {
        floor: |_| 0,
    }
    floors_inside_an_item {
        width: 2,
        floor: |len| len.saturating_sub(1),
    }
    has_too_long_items {
        width: 256,
    }
    floors_anywhere {
        floor: |len| chance(len + 2),
    }
    says_that_keys_are_empty {
        is_empty: |_| true,
    }
    says_that_no_key_is_empty {
        is_empty: |_| false,
    }
    says_the_contrary_of_empty {
        is_empty: |is_empty| !is_empty,
    }
    says_anything_of_empty {
        is_empty: |_| chance(2) == 0,
    }
    owns_empty_keys {
        owned: |_| Vec::new(),
    }
    owns_longer_keys {
        owned: |bytes| [bytes, &[7]].concat(),
    }
    owns_lesser_keys {
        owned: |bytes| bytes.iter().map(|_| 0).collect(),
    }
    panics_at_times {
        enter: || assert!(chance(300) > 0, "a method panics"),
    }
    panics_often {
        width: 2,
        enter: || assert!(chance(40) > 0, "a method panics"),
    }
    does_all_wrong {
        enter: || assert!(chance(200) > 0, "a method panics"),
        bytes: |key| &key[..key.len() - usize::from(chance(9) == 0).min(key.len())],
        is_valid: |_| chance(20) > 0,
        stripped: |len, shared| if chance(9) > 0 { shared } else { chance(len + 1) },
        order: |order| if chance(9) > 0 { order } else { order.reverse() },
        cut: |len, n| if chance(9) > 0 { n } else { chance(len + 1) },
        floor: |len| chance(9) * len / 8,
        is_empty: |is_empty| is_empty ^ (chance(9) == 0),
    }
}
