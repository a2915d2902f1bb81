//! Errors, and the end of a program that runs out of memory.

pub use crate::proved::patricia_core::tree::DecodeError;
pub use crate::proved::patricia_tree::map::LoadError;
pub use crate::proved::patricia_tree::wire::WireError;
pub use crate::rt::alloc::AllocError;
use core::alloc::Layout;
use core::error::Error;
use core::fmt;
use memory::alloc::handle_alloc_error;

/// Memory ran out for a new key, and the value comes back.
#[derive(Clone, Copy, Debug, PartialEq, Eq)]
pub struct Refused<V> {
    /// The value that was to be inserted.
    pub value: V,
}

impl<V> fmt::Display for Refused<V> {
    fn fmt(&self, f: &mut fmt::Formatter<'_>) -> fmt::Result {
        AllocError.fmt(f)
    }
}

impl<V: fmt::Debug> Error for Refused<V> {}

impl<V> From<Refused<V>> for AllocError {
    fn from(_: Refused<V>) -> Self {
        AllocError
    }
}

/// The tree is too deep for an encoding: a node is deeper than level 65,535, or 4,294,967,295 in
/// the wide encoding. Only keys of more than that many items make such a tree.
#[derive(Clone, Copy, Debug, PartialEq, Eq)]
pub struct TooDeep;

impl fmt::Display for TooDeep {
    fn fmt(&self, f: &mut fmt::Formatter<'_>) -> fmt::Result {
        f.write_str("a node of the tree is too deep for this encoding")
    }
}

impl Error for TooDeep {}

/// A key does not come after the key before it.
#[derive(Clone, Copy, Debug, PartialEq, Eq)]
pub struct NotInOrder;

impl fmt::Display for NotInOrder {
    fn fmt(&self, f: &mut fmt::Formatter<'_>) -> fmt::Result {
        f.write_str("key out of order")
    }
}

impl Error for NotInOrder {}

/// Ends the program as std's collections do if memory runs out.
#[cold]
#[inline(never)]
pub(crate) fn out_of_memory() -> ! {
    handle_alloc_error(Layout::new::<u64>())
}

/// Takes the result of a call that fails only if memory runs out.
#[inline(always)]
pub(crate) fn need<T, E>(result: Result<T, E>) -> T {
    match result {
        Ok(value) => value,
        Err(_) => out_of_memory(),
    }
}

/// Takes the result of an encoding.
pub(crate) fn encoded<T>(result: Result<T, WireError>) -> Result<T, TooDeep> {
    match result {
        Ok(bytes) => Ok(bytes),
        Err(WireError::TooDeep | WireError::TooDeepWide) => Err(TooDeep),
        Err(WireError::Memory) => out_of_memory(),
    }
}

/// Takes the result of a decoding.
pub(crate) fn decoded<T>(result: Result<T, DecodeError>) -> Result<T, DecodeError> {
    match result {
        Err(DecodeError::Memory) => out_of_memory(),
        result => result,
    }
}

/// Takes the result of a load of entries in order.
pub(crate) fn loaded<T>(result: Result<T, LoadError>) -> Result<T, NotInOrder> {
    match result {
        Ok(value) => Ok(value),
        Err(LoadError::NotInOrder) => Err(NotInOrder),
        Err(LoadError::Memory) => out_of_memory(),
    }
}
