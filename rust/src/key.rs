//! Kinds of keys, and how they are lent to the proved code.

use crate::proved::patricia_keys::{BorrowedBytes as ProvedBorrowed, Bytes as ProvedBytes};
use crate::rt;
use crate::rt::alloc::{AllocError, Global};
use core::borrow::Borrow;
use core::cmp::Ordering;
use core::marker::PhantomData;
use memory::borrow::ToOwned;
use memory::string::String;
use memory::vec::Vec;

/// An owned key: a byte string, a text, or a kind of keys of your own.
///
/// A kind has to keep the law of [`BorrowedBytes`].
pub trait Bytes {
    /// The borrowed form of this kind.
    type Borrowed: ?Sized + BorrowedBytes + ToOwned<Owned = Self>;

    /// Makes an owned key of bytes that are a valid key. Keys that iterators return are made by
    /// this.
    ///
    /// The provided body calls `to_owned` of the borrowed key, and so aborts if memory runs out. A
    /// kind that returns an error in that case makes the `try_` calls return it.
    fn try_from_bytes(bytes: &[u8]) -> Result<Self, AllocError>
    where
        Self: Sized,
    {
        Ok(Self::Borrowed::from_bytes(bytes).to_owned())
    }
}

/// A borrowed key.
///
/// # The law
///
/// A key is a list of *items*: bytes in byte strings, characters in texts. Each item is 1 to 255
/// bytes, none begins another one, and which lists of bytes are items depends on nothing else. Keys
/// are compared by their bytes, and labels of the tree are cut between items only. So, with `key`
/// of this kind:
///
/// - `is_valid_bytes(bytes)` holds if the bytes are items one after the other; it holds of no
///   bytes. `from_bytes` and `as_bytes` convert between such bytes and the key.
/// - `strip_common_prefix(bytes)` is the key without the items that it has in common with the front
///   of the bytes, and `strip_common_prefix_and_len` says how many bytes these are.
/// - `cmp_first_item(bytes)` compares the bytes of the first items; an empty list comes first.
/// - `strip_n_prefix(n)` and `keep_n_prefix(n)` are the key after and before its first `n` bytes,
///   which are whole items.
/// - `floor_boundary(bytes)` is the number of bytes at the front of any bytes that are whole items.
///
/// With a kind that breaks the law, calls may return wrong answers or panic. They stay memory-safe:
/// this crate has no unsafe code.
pub trait BorrowedBytes {
    /// Returns the bytes of the key.
    fn as_bytes(&self) -> &[u8];

    /// Returns whether the bytes are a key of this kind.
    fn is_valid_bytes(bytes: &[u8]) -> bool;

    /// Makes a key of bytes for which `is_valid_bytes` holds.
    fn from_bytes(bytes: &[u8]) -> &Self;

    /// Returns the key without the items that it has in common with the front of the bytes.
    fn strip_common_prefix(&self, bytes: &[u8]) -> &Self;

    /// Does as `strip_common_prefix`, and returns how many bytes it stripped as well.
    fn strip_common_prefix_and_len(&self, bytes: &[u8]) -> (&Self, usize) {
        let rest = self.strip_common_prefix(bytes);
        (rest, self.as_bytes().len() - rest.as_bytes().len())
    }

    /// Compares the first item with the first item in the bytes.
    fn cmp_first_item(&self, bytes: &[u8]) -> Ordering;

    /// Returns whether the key has no bytes.
    fn is_empty(&self) -> bool {
        self.as_bytes().is_empty()
    }

    /// Returns the key without its first `n` bytes, which are whole items.
    fn strip_n_prefix(&self, n: usize) -> &Self;

    /// Returns the first `n` bytes, which are whole items, as a key.
    fn keep_n_prefix(&self, n: usize) -> &Self {
        Self::from_bytes(&self.as_bytes()[..n])
    }

    /// Returns how many bytes at the front are whole items. The provided body is that of a kind
    /// whose items are single bytes.
    fn floor_boundary(bytes: &[u8]) -> usize {
        bytes.len()
    }
}

impl Bytes for Vec<u8> {
    type Borrowed = [u8];

    #[inline]
    fn try_from_bytes(bytes: &[u8]) -> Result<Self, AllocError> {
        rt::vec::Vec::from_slice(Global, bytes).map(|made| made.0)
    }
}

impl Bytes for String {
    type Borrowed = str;

    #[inline]
    fn try_from_bytes(bytes: &[u8]) -> Result<Self, AllocError> {
        rt::StringExt::from_str(Global, <str as BorrowedBytes>::from_bytes(bytes))
    }
}

impl BorrowedBytes for [u8] {
    #[inline(always)]
    fn as_bytes(&self) -> &[u8] {
        self
    }

    #[inline(always)]
    fn is_valid_bytes(_bytes: &[u8]) -> bool {
        true
    }

    #[inline(always)]
    fn from_bytes(bytes: &[u8]) -> &Self {
        bytes
    }

    #[inline]
    fn strip_common_prefix(&self, bytes: &[u8]) -> &Self {
        &self[shared_len(self, bytes)..]
    }

    #[inline]
    fn cmp_first_item(&self, bytes: &[u8]) -> Ordering {
        self.first().cmp(&bytes.first())
    }

    #[inline(always)]
    fn strip_n_prefix(&self, n: usize) -> &Self {
        &self[n..]
    }

    #[inline(always)]
    fn keep_n_prefix(&self, n: usize) -> &Self {
        &self[..n]
    }
}

impl BorrowedBytes for str {
    #[inline(always)]
    fn as_bytes(&self) -> &[u8] {
        self.as_bytes()
    }

    #[inline]
    fn is_valid_bytes(bytes: &[u8]) -> bool {
        core::str::from_utf8(bytes).is_ok()
    }

    /// Makes a text of bytes that are UTF-8.
    ///
    /// # Panics
    ///
    /// Panics if they are not.
    #[inline]
    fn from_bytes(bytes: &[u8]) -> &Self {
        core::str::from_utf8(bytes).expect("the bytes of a text are UTF-8")
    }

    #[inline]
    fn strip_common_prefix(&self, bytes: &[u8]) -> &Self {
        let shared = shared_len(self.as_bytes(), bytes);
        &self[rt::floor_char_boundary(self, shared)..]
    }

    /// Compares the first character with the first one in the bytes.
    #[inline]
    fn cmp_first_item(&self, bytes: &[u8]) -> Ordering {
        first_char(self.as_bytes()).cmp(first_char(bytes))
    }

    #[inline]
    fn strip_n_prefix(&self, n: usize) -> &Self {
        &self[n..]
    }

    #[inline]
    fn keep_n_prefix(&self, n: usize) -> &Self {
        &self[..n]
    }

    fn floor_boundary(bytes: &[u8]) -> usize {
        match core::str::from_utf8(bytes) {
            Ok(text) => text.len(),
            Err(error) => error.valid_up_to(),
        }
    }
}

/// How many bytes two lists have in common at the front.
#[inline]
fn shared_len(a: &[u8], b: &[u8]) -> usize {
    a.iter().zip(b).take_while(|(x, y)| x == y).count()
}

/// The bytes of the first character, as many as its first byte says (RFC 3629), or no bytes.
#[inline]
fn first_char(bytes: &[u8]) -> &[u8] {
    let len = match bytes.first() {
        None => 0,
        Some(0..0xc0) => 1,
        Some(0xc0..0xe0) => 2,
        Some(0xe0..0xf0) => 3,
        Some(0xf0..) => 4,
    };
    &bytes[..len.min(bytes.len())]
}

/// Lends the borrowed form of an owned key.
fn lend<B: ?Sized + ToOwned>(owned: &B::Owned) -> &B {
    owned.borrow()
}

/// The most bytes of an item.
const LONGEST_ITEM: usize = 255;

/// An owned key as the proved code sees it.
pub struct Owned<K>(pub(crate) K);

impl<K: Bytes> ProvedBytes for Owned<K> {
    #[inline]
    fn is_valid_bytes(bytes: &[u8]) -> bool {
        K::Borrowed::is_valid_bytes(bytes)
    }

    #[inline]
    fn from_bytes(_alloc: Global, bytes: &[u8]) -> Result<Self, AllocError> {
        K::try_from_bytes(bytes).map(Owned)
    }

    #[inline]
    fn as_bytes(&self) -> &[u8] {
        lend::<K::Borrowed>(&self.0).as_bytes()
    }

    // a kind that breaks the law must not have the same part of a label written again and again
    #[inline]
    fn floor_boundary(bytes: &[u8]) -> usize {
        let floor = K::Borrowed::floor_boundary(bytes);
        let is_whole = floor > 0 || bytes.len() < LONGEST_ITEM;
        assert!(is_whole, "no item of a key has more than 255 bytes");
        floor
    }
}

/// A borrowed key as the proved code sees it, of the kind `K` there.
pub struct Lent<'b, B: ?Sized, K> {
    key: &'b B,
    kind: PhantomData<fn() -> K>,
}

/// A borrowed key of a map whose owned keys are `K`.
pub(crate) type Key<'b, K> = Lent<'b, <K as Bytes>::Borrowed, Owned<K>>;

impl<'b, B: ?Sized, K> Lent<'b, B, K> {
    #[inline(always)]
    pub(crate) fn new(key: &'b B) -> Self {
        Lent {
            key,
            kind: PhantomData,
        }
    }

    #[inline(always)]
    pub(crate) fn get(self) -> &'b B {
        self.key
    }
}

impl<B: ?Sized, K> Clone for Lent<'_, B, K> {
    #[inline(always)]
    fn clone(&self) -> Self {
        *self
    }
}

impl<B: ?Sized, K> Copy for Lent<'_, B, K> {}

impl<B: ?Sized + BorrowedBytes, K: ProvedBytes> ProvedBorrowed for Lent<'_, B, K> {
    type Owned = K;

    #[inline(always)]
    fn as_bytes(&self) -> &[u8] {
        self.key.as_bytes()
    }

    #[inline(always)]
    fn is_empty(&self) -> bool {
        self.key.is_empty()
    }

    #[inline]
    fn strip_common_prefix(self, bytes: &[u8]) -> Self {
        Lent::new(self.key.strip_common_prefix(bytes))
    }

    #[inline]
    fn strip_common_prefix_and_len(self, bytes: &[u8]) -> (Self, usize) {
        let (rest, len) = self.key.strip_common_prefix_and_len(bytes);
        (Lent::new(rest), len)
    }

    #[inline]
    fn cmp_first_item(self, bytes: &[u8]) -> Ordering {
        self.key.cmp_first_item(bytes)
    }

    #[inline(always)]
    fn strip_n_prefix(self, n: usize) -> Self {
        Lent::new(self.key.strip_n_prefix(n))
    }

    #[inline(always)]
    fn keep_n_prefix(self, n: usize) -> Self {
        Lent::new(self.key.keep_n_prefix(n))
    }
}
