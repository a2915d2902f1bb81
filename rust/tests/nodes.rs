//! How many nodes a tree has room for and how many children records have, which no call tells. The
//! proved code is public only under `--cfg workbench`.
#![cfg(workbench)]

#[path = "common/encodings.rs"]
mod encodings;

use encodings::{THREE, WIDE};
use patricia::workbench::{AllocError, Global, Narrow, ProvedVec, Tree, Wide, count_children};

/// The node that the second key divides is joined again, and the keys of siblings are freed from
/// their ends and their middle. The empty key has no node.
const KEYS: [&str; 11] = [
    "foobar", "foobaz", "い", "", "あ", "あう", "う", "foo", "え", "お", "fox",
];

fn insert(tree: &mut Tree<String, usize>, keys: &[&str]) {
    for (number, key) in keys.iter().enumerate() {
        assert!(tree.insert(*key, number).is_ok_and(|old| old.is_none()));
    }
}

#[test]
fn nodes_that_removals_free_are_used_again() -> Result<(), AllocError> {
    let mut tree = Tree::new(Global);
    for _ in 0..1000 {
        insert(&mut tree, &KEYS);
        for (number, key) in KEYS.iter().enumerate() {
            assert_eq!(tree.remove(*key)?, Some(number));
        }
        assert_eq!((tree.len(), tree.slots()), (0, 12));
    }
    Ok(())
}

#[test]
fn a_copy_has_no_free_node() -> Result<(), AllocError> {
    let cases: [(&[&str], &str, usize); 3] = [
        (&["a", "b", "c"], "b", 2),
        (&["foobar", "foobaz", "", "あ"], "foobaz", 2),
        (&["foo"], "foo", 0),
    ];
    let mut tree = Tree::new(Global);
    for (keys, removed, slots) in cases {
        insert(&mut tree, keys);
        assert!(tree.remove(removed)?.is_some());
        assert_eq!(Tree::clone(&tree)?.slots(), slots);
        tree.clear();
    }
    Ok(())
}

/// The tree bytes of so many keys of one byte.
fn row(keys: u8) -> Vec<u8> {
    let flags = |key| if key + 1 < keys { 51 } else { 3 };
    let records = (0..keys).flat_map(|key| [flags(key), 1, 0, 1, key]);
    [12, 0, 0, 0].into_iter().chain(records).collect()
}

/// The siblings that a record has below it lie side by side, as many as are counted.
#[test]
fn children_are_counted() -> Result<(), AllocError> {
    let counts = [2, 2, 0, 0, 0];
    assert_eq!(count_children::<Narrow>(Global, &THREE)?[..], counts);
    assert_eq!(count_children::<Wide>(Global, &WIDE)?[..], counts);
    assert_eq!(count_children::<Narrow>(Global, &row(200))?[0], 200);
    Ok(())
}

#[test]
fn a_tree_that_is_read_has_no_free_node() {
    // a, with ab below it, and abc below that
    let nested = [
        12, 0, 0, 0, 15, 1, 0, 1, 97, 15, 1, 0, 2, 98, 3, 1, 0, 3, 99,
    ];
    for (bytes, keys, slots) in [(&THREE[..], 3, 4), (&nested, 3, 3), (&row(200), 200, 200)] {
        let mut values = ProvedVec::new(Global);
        (0..keys).for_each(|number| assert!(values.push(number).is_ok()));
        let tree = Tree::<ProvedVec<u8>, usize>::from_wire::<Narrow>(Global, bytes, values);
        assert_eq!(tree.map(|tree| tree.slots()).ok(), Some(slots));
    }
}
