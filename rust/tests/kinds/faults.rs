//! A kind of keys whose items are so many bytes wide, and what it may get wrong.

use patricia::{BorrowedBytes, Bytes};
use std::borrow::Borrow;
use std::cell::Cell;
use std::cmp::Ordering;
use std::fmt;
use std::hash::{Hash, Hasher};

/// What the kind of keys does, in this thread. Each fault is a field that differs from `LAWFUL`.
#[derive(Clone, Copy)]
pub struct Kind {
    /// How many bytes an item is.
    pub width: usize,
    /// Is called at the start of each method.
    pub enter: fn(),
    /// The bytes of a key.
    pub bytes: fn(&[u8]) -> &[u8],
    /// The bytes of the key that is made of some.
    pub made_of: fn(&[u8]) -> &[u8],
    /// The bytes of the owned key that is made of some.
    pub owned: fn(&[u8]) -> Vec<u8>,
    /// Whether so many bytes are valid.
    pub is_valid: fn(usize) -> bool,
    /// How many bytes to strip of a key of a length that shares so many bytes.
    pub stripped: fn(usize, usize) -> usize,
    /// How many bytes are said to be stripped.
    pub said: fn(usize) -> usize,
    /// The order of items whose order is given.
    pub order: fn(Ordering) -> Ordering,
    /// Where to cut a key of a length in place of at the second number.
    pub cut: fn(usize, usize) -> usize,
    /// How many bytes of a key of a length to keep in place of the second number.
    pub kept: fn(usize, usize) -> usize,
    /// The boundary in so many bytes.
    pub floor: fn(usize) -> usize,
    /// What is said of whether a key is empty.
    pub is_empty: fn(bool) -> bool,
}

/// The kind that keeps the law, with items of one byte.
pub const LAWFUL: Kind = Kind {
    width: 1,
    enter: || (),
    bytes: |key| key,
    made_of: |bytes| bytes,
    owned: |bytes| bytes.to_vec(),
    is_valid: |len| len % kind().width == 0,
    stripped: |_, shared| shared,
    said: |stripped| stripped,
    order: |order| order,
    cut: |_, n| n,
    kept: |_, n| n,
    floor: |len| len - len % kind().width,
    is_empty: |is_empty| is_empty,
};

thread_local! {
    static KIND: Cell<Kind> = const { Cell::new(LAWFUL) };
}

/// The kind of this thread.
pub fn kind() -> Kind {
    KIND.get()
}

/// Chooses the kind of this thread.
pub fn choose(kind: Kind) {
    KIND.set(kind);
}

/// The kind of this thread, at the start of a method.
fn entered() -> Kind {
    (kind().enter)();
    kind()
}

/// A borrowed key.
#[repr(transparent)]
pub struct Units {
    bytes: [u8],
}

/// An owned key.
pub struct OwnedUnits {
    bytes: Vec<u8>,
}

impl Units {
    /// The key of these bytes.
    pub fn of(bytes: &[u8]) -> &Self {
        // SAFETY: `Units` has the representation of its only field with a size, a slice of bytes.
        unsafe { &*(std::ptr::from_ref(bytes) as *const Self) }
    }
}

impl OwnedUnits {
    /// The key of these bytes.
    pub fn of(bytes: Vec<u8>) -> Self {
        OwnedUnits { bytes }
    }

    /// The bytes, whatever the fault.
    pub fn true_bytes(&self) -> &[u8] {
        &self.bytes
    }
}

impl Clone for OwnedUnits {
    fn clone(&self) -> Self {
        OwnedUnits::of(self.bytes.clone())
    }
}

impl PartialEq for OwnedUnits {
    fn eq(&self, other: &Self) -> bool {
        self.bytes == other.bytes
    }
}

impl Eq for OwnedUnits {}

impl PartialOrd for OwnedUnits {
    fn partial_cmp(&self, other: &Self) -> Option<Ordering> {
        Some(self.cmp(other))
    }
}

impl Ord for OwnedUnits {
    fn cmp(&self, other: &Self) -> Ordering {
        self.bytes.cmp(&other.bytes)
    }
}

impl Hash for OwnedUnits {
    fn hash<H: Hasher>(&self, state: &mut H) {
        self.bytes.hash(state);
    }
}

impl fmt::Debug for OwnedUnits {
    fn fmt(&self, f: &mut fmt::Formatter<'_>) -> fmt::Result {
        self.bytes.fmt(f)
    }
}

impl Borrow<Units> for OwnedUnits {
    fn borrow(&self) -> &Units {
        Units::of(&self.bytes)
    }
}

impl AsRef<Units> for OwnedUnits {
    fn as_ref(&self) -> &Units {
        Units::of(&self.bytes)
    }
}

impl AsRef<Units> for Units {
    fn as_ref(&self) -> &Units {
        self
    }
}

impl ToOwned for Units {
    type Owned = OwnedUnits;

    fn to_owned(&self) -> OwnedUnits {
        let kind = entered();
        OwnedUnits::of((kind.owned)(&self.bytes))
    }
}

impl Bytes for OwnedUnits {
    type Borrowed = Units;
}

impl BorrowedBytes for Units {
    fn as_bytes(&self) -> &[u8] {
        (entered().bytes)(&self.bytes)
    }

    fn is_valid_bytes(bytes: &[u8]) -> bool {
        (entered().is_valid)(bytes.len())
    }

    fn from_bytes(bytes: &[u8]) -> &Self {
        let kind = entered();
        Units::of((kind.made_of)(bytes))
    }

    fn strip_common_prefix(&self, bytes: &[u8]) -> &Self {
        let kind = entered();
        let pairs = self.bytes.iter().zip(bytes);
        let shared = pairs.take_while(|(x, y)| x == y).count();
        let shared = shared - shared % kind.width;
        Units::of(&self.bytes[(kind.stripped)(self.bytes.len(), shared)..])
    }

    fn strip_common_prefix_and_len(&self, bytes: &[u8]) -> (&Self, usize) {
        let rest = self.strip_common_prefix(bytes);
        (rest, (kind().said)(self.bytes.len() - rest.bytes.len()))
    }

    fn cmp_first_item(&self, bytes: &[u8]) -> Ordering {
        let kind = entered();
        let first = |bytes: &[u8]| bytes[..bytes.len().min(kind.width)].to_vec();
        (kind.order)(first(&self.bytes).cmp(&first(bytes)))
    }

    fn is_empty(&self) -> bool {
        (entered().is_empty)(self.bytes.is_empty())
    }

    fn strip_n_prefix(&self, n: usize) -> &Self {
        let kind = entered();
        Units::of(&self.bytes[(kind.cut)(self.bytes.len(), n)..])
    }

    fn keep_n_prefix(&self, n: usize) -> &Self {
        let kind = entered();
        Units::of(&self.bytes[..(kind.kept)(self.bytes.len(), n)])
    }

    fn floor_boundary(bytes: &[u8]) -> usize {
        (entered().floor)(bytes.len())
    }
}
