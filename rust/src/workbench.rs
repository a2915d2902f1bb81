//! The names that the examples of the proved sources use, and calls that make a request for memory
//! fail. This module exists only under `--cfg workbench`.

pub use crate::proved::patricia_codec::counts::count_children;
pub use crate::proved::patricia_codec::{Narrow, Wide};
pub use crate::proved::patricia_core::keys::*;
pub use crate::proved::patricia_core::steps::*;
pub use crate::proved::patricia_core::tree::Tree;
pub use crate::proved::patricia_tree::map::*;
pub use crate::proved::patricia_tree::router::*;
pub use crate::proved::patricia_tree::set::{
    ElementRange, GenericPatriciaSet, PatriciaSet, StringPatriciaSet,
};
pub use crate::proved::patricia_tree::wire::*;
pub use crate::proved::patricia_tree::*;
pub use crate::rt::StringExt as _;
pub use crate::rt::alloc::{AllocError, Clone, Global};
pub use crate::rt::marker::Brand;
pub use crate::rt::sync::ledger::{Blank, Ledger};
pub use crate::rt::vec::Vec;
pub use core::cmp::Ordering;

pub use memory::string::String;

pub struct Fail(String);

impl core::fmt::Debug for Fail {
    fn fmt(&self, f: &mut core::fmt::Formatter<'_>) -> core::fmt::Result {
        f.write_str(&self.0)
    }
}

impl<E: core::error::Error> From<E> for Fail {
    fn from(e: E) -> Fail {
        Fail(memory::format!("{e}"))
    }
}

pub use crate::rt::requests::{made, refuse};
pub use crate::rt::vec::Vec as ProvedVec;
