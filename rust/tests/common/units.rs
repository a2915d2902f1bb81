//! Keys that are lists of 16-bit units, each stored with its high byte first.

use patricia::{BorrowedBytes, Bytes};
use std::borrow::Borrow;
use std::cmp::Ordering;

/// An owned list of units.
#[derive(Clone, Debug, PartialEq, Eq, PartialOrd, Ord, Hash)]
pub struct UnitKey(pub Vec<u8>);

/// A borrowed list of units.
#[derive(Debug, PartialEq, Eq, PartialOrd, Ord, Hash)]
#[repr(transparent)]
pub struct Units([u8]);

impl Units {
    pub fn new(bytes: &[u8]) -> &Units {
        assert!(bytes.len() % 2 == 0, "half a unit");
        // SAFETY: a `Units` has the layout of a slice of bytes.
        unsafe { &*(bytes as *const [u8] as *const Units) }
    }
}

impl ToOwned for Units {
    type Owned = UnitKey;

    fn to_owned(&self) -> UnitKey {
        UnitKey(self.0.to_vec())
    }
}

impl Borrow<Units> for UnitKey {
    fn borrow(&self) -> &Units {
        Units::new(&self.0)
    }
}

impl AsRef<Units> for UnitKey {
    fn as_ref(&self) -> &Units {
        Units::new(&self.0)
    }
}

impl AsRef<Units> for Units {
    fn as_ref(&self) -> &Units {
        self
    }
}

impl Bytes for UnitKey {
    type Borrowed = Units;
}

/// The first unit, or none.
fn first(bytes: &[u8]) -> &[u8] {
    &bytes[..bytes.len().min(2)]
}

impl BorrowedBytes for Units {
    fn as_bytes(&self) -> &[u8] {
        &self.0
    }

    fn is_valid_bytes(bytes: &[u8]) -> bool {
        bytes.len() % 2 == 0
    }

    fn from_bytes(bytes: &[u8]) -> &Self {
        Units::new(bytes)
    }

    fn strip_common_prefix(&self, bytes: &[u8]) -> &Self {
        let pairs = self.0.iter().zip(bytes);
        let shared = pairs.take_while(|(x, y)| x == y).count();
        Units::new(&self.0[shared - shared % 2..])
    }

    fn cmp_first_item(&self, bytes: &[u8]) -> Ordering {
        first(&self.0).cmp(first(bytes))
    }

    fn strip_n_prefix(&self, n: usize) -> &Self {
        Units::new(&self.0[n..])
    }

    fn floor_boundary(bytes: &[u8]) -> usize {
        bytes.len() - bytes.len() % 2
    }
}
