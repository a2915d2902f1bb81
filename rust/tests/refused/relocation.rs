//! An insert that relocates the nodes for their order alone, which is done without memory for that,
//! too.

use crate::in_turn_or_without;
use patricia::{AllocError, PatriciaMap};

/// How many keys there are: enough that their nodes are relocated after as many changes.
const COUNT: u16 = 6000;

#[test]
fn an_insert_is_done_without_a_relocation() {
    let filled = || -> PatriciaMap<u16> {
        let mut map = PatriciaMap::new();
        map.extend((0..COUNT).map(|number| (number.to_be_bytes(), number)));
        map
    };
    let replace = |map: &mut PatriciaMap<u16>| {
        for number in 0..COUNT {
            let key = number.to_be_bytes();
            let value = map.try_remove(key)?.expect("the key is there");
            map.try_insert(key, value)?;
        }
        Ok::<(), AllocError>(())
    };
    let turns = in_turn_or_without(filled, replace, |map, result| {
        let is_there = |number: u16| map.get(number.to_be_bytes()) == Some(&number);
        assert!(result.is_err() || (0..COUNT).all(is_there));
    });
    // the others are for labels that are joined
    assert!(turns.done_without + 2 >= turns.requests && turns.done_without > 2);
}
