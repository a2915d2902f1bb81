//! Each call of maps and sets with its answer, and the names of `patricia_tree` 0.10.2.

mod bulk;
mod closures;
#[path = "../common/encodings.rs"]
mod encodings;
mod iterators;
mod map;
mod names;
mod set;
mod threads;
mod traits;
mod tree_bytes;
