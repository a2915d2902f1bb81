//! Maps and sets of three kinds of keys against std's ordered map and set, at random.
//!
//! The environment variable `PATRICIA_SEEDS` says with how many seeds.

mod changes;
#[path = "../common/mod.rs"]
mod common;
mod large;
mod near;
mod pair;
mod reads;
mod sets;

use common::{Kind, UnitKey, for_seeds};
use pair::{Pair, check};

fn run<K: Kind>(seed: u64, steps: usize) {
    let mut pair = Pair::<K>::new(seed);
    let calls: [fn(&mut Pair<K>); 20] = [
        Pair::change_one,
        Pair::insert_missing,
        Pair::look_up,
        Pair::look_many_up,
        Pair::look_under,
        Pair::look_at_ends,
        Pair::look_between,
        Pair::skip,
        Pair::walk,
        Pair::lend_all,
        Pair::split_and_merge,
        Pair::merge,
        Pair::extend,
        Pair::retain,
        Pair::pop,
        Pair::clear,
        Pair::collect,
        Pair::encode,
        Pair::remove,
        Pair::insert,
    ];
    for _ in 0..steps {
        match pair.random.below(3) {
            0 => calls[pair.random.below(calls.len())](&mut pair),
            1 => pair.insert(),
            _ => pair.remove(),
        }
        assert_eq!(pair.map.len(), pair.model.len());
    }
    check(&pair.map, &pair.model);
}

#[test]
fn maps_of_bytes_are_as_those_of_std() {
    for_seeds(25, |seed| run::<Vec<u8>>(seed, 600));
}

#[test]
fn maps_of_texts_are_as_those_of_std() {
    for_seeds(25, |seed| run::<String>(seed + 1000, 600));
}

#[test]
fn maps_of_units_are_as_those_of_std() {
    for_seeds(25, |seed| run::<UnitKey>(seed + 2000, 600));
}
