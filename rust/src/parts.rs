//! Calls that the types have for any `K`, while those of the proved code require a kind of keys.
//! None of them reads a key.

use crate::key::Owned;
use crate::proved::patricia_core::tree::Tree;
use crate::proved::patricia_edits::{copy, copy_value};
use crate::proved::patricia_nodes::parts::TreeParts;
use crate::proved::patricia_tree::map::GenericPatriciaMap as ProvedMap;
use crate::rt::alloc::{AllocError, Global};
use crate::rt::vec::Vec as ProvedVec;
use core::marker::PhantomData;

/// The map of the proved code.
pub(crate) type Proved<K, V> = ProvedMap<Owned<K>, V>;

/// The map that has these parts.
fn with_parts<K, V>(parts: TreeParts<V>) -> Proved<K, V> {
    ProvedMap {
        tree: Tree {
            parts,
            kind: PhantomData,
        },
    }
}

/// An empty map.
pub(crate) fn empty<K, V>() -> Proved<K, V> {
    let made: ProvedMap<ProvedVec<u8>, V> = ProvedMap::new(Global);
    with_parts(made.tree.parts)
}

/// The number of entries.
#[inline]
pub(crate) fn len<K, V>(map: &Proved<K, V>) -> usize {
    let parts = &map.tree.parts;
    parts.count + usize::from(parts.value.is_some())
}

/// A copy of a map.
pub(crate) fn try_clone<K, V: Clone>(map: &Proved<K, V>) -> Result<Proved<K, V>, AllocError> {
    let parts = &map.tree.parts;
    Ok(with_parts(TreeParts {
        alloc: Global,
        value: copy_value(parts.value.as_ref())?,
        arena: copy(&parts.arena, Global)?,
        count: parts.count,
    }))
}
