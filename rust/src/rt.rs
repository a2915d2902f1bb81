//! The part of the kit's `std` that the erased sources use, implemented with Rust's `core` and
//! `alloc`.
pub use core::{cmp, fmt, mem, str};
use memory::string::String;

pub mod prelude {
    pub use super::StringExt as _;
    pub use super::alloc::Clone;
    pub(crate) use super::prove;
    pub use super::vec::Vec;
    pub use memory::string::String;
}

/// What a proof has shown, which the compiler evaluates: the sources use it only in constants.
macro_rules! prove {
    ($($t:tt)*) => { assert!($($t)*) };
}
pub(crate) use prove;

pub mod alloc {
    /// The allocator, of which there is one.
    #[derive(Clone, Copy, Debug, Default)]
    pub struct Global;

    /// Out of memory.
    #[derive(Clone, Copy, Debug, PartialEq, Eq)]
    pub struct AllocError;

    impl core::fmt::Display for AllocError {
        fn fmt(&self, f: &mut core::fmt::Formatter<'_>) -> core::fmt::Result {
            f.write_str("out of memory")
        }
    }

    impl core::error::Error for AllocError {}

    /// Out of memory, and the value that was not put in.
    pub struct AllocFailed<T> {
        pub value: T,
    }

    impl<T> From<AllocFailed<T>> for AllocError {
        #[inline]
        fn from(_: AllocFailed<T>) -> AllocError {
            AllocError
        }
    }

    /// A copy that may fail. That of a type of Rust aborts if memory runs out.
    pub trait Clone: Sized {
        fn clone(&self) -> Result<Self, AllocError>;
    }

    impl<T: core::clone::Clone> Clone for T {
        #[inline]
        fn clone(&self) -> Result<T, AllocError> {
            Ok(core::clone::Clone::clone(self))
        }
    }
}

pub mod default {
    pub trait MadeWith<A> {
        fn made_with(alloc: A) -> Self;
    }
}

pub mod iter {
    use super::alloc::AllocError;
    pub use core::iter::{FusedIterator, IntoIterator, Iterator};

    pub trait FromIterator<A>: Sized {
        type Alloc;

        fn from_iter<I: IntoIterator<Item = A>>(
            alloc: Self::Alloc,
            iter: I,
        ) -> Result<Self, AllocError>;
    }

    pub trait Extend<A> {
        fn extend<I: IntoIterator<Item = A>>(&mut self, iter: I) -> Result<(), AllocError>;
    }
}

pub mod marker {
    pub use core::marker::PhantomData;

    /// The name of a ledger that nobody reads.
    pub struct Brand;

    impl super::sync::ledger::Ledger for Brand {}
}

pub mod sync {
    /// Counts that only contracts use. They have no bytes at run time.
    pub mod ledger {
        use core::marker::PhantomData;

        pub trait Ledger {}

        pub struct Blank;

        pub struct Book<L>(PhantomData<L>);

        pub struct Share<L>(PhantomData<L>);

        impl Blank {
            #[inline(always)]
            pub fn new(_parts: usize) -> Blank {
                Blank
            }

            #[inline(always)]
            pub fn open<L: Ledger>(self) -> (Book<L>, Share<L>) {
                (Book(PhantomData), Share(PhantomData))
            }
        }

        impl<L> Book<L> {
            #[inline(always)]
            pub fn add(&mut self, _share: &mut Share<L>, _n: u64) {}
        }
    }
}

/// Requests for memory. In the workbench a test can make one of them fail.
pub mod requests {
    #[cfg(workbench)]
    extern crate std;
    #[cfg(workbench)]
    use core::cell::Cell;

    #[cfg(workbench)]
    std::thread_local! {
        static MADE: Cell<usize> = const { Cell::new(0) };
        static REFUSED: Cell<usize> = const { Cell::new(0) };
    }

    /// Starts to count the requests of this thread, and makes the one of this number fail, counted
    /// from 1. With 0 none fails.
    #[cfg(workbench)]
    pub fn refuse(number: usize) {
        MADE.set(0);
        REFUSED.set(number);
    }

    /// How many requests this thread has made since it began to count.
    #[cfg(workbench)]
    pub fn made() -> usize {
        MADE.get()
    }

    /// Counts a request, and returns whether it is to fail.
    #[cfg(workbench)]
    pub fn is_refused() -> bool {
        MADE.set(MADE.get() + 1);
        MADE.get() == REFUSED.get()
    }

    /// Returns whether a request is to fail: none is.
    #[cfg(not(workbench))]
    #[inline(always)]
    pub fn is_refused() -> bool {
        false
    }
}

/// Calls that the kit's `String` has and Rust's has not.
pub trait StringExt: Sized {
    fn from_str(alloc: alloc::Global, text: &str) -> Result<Self, alloc::AllocError>;
}

impl StringExt for String {
    #[inline]
    fn from_str(_: alloc::Global, text: &str) -> Result<String, alloc::AllocError> {
        let mut made = String::new();
        if !text.is_empty() {
            if requests::is_refused() {
                return Err(alloc::AllocError);
            }
            made.try_reserve_exact(text.len())
                .map_err(|_| alloc::AllocError)?;
        }
        made.push_str(text);
        Ok(made)
    }
}

pub mod vec {
    use super::alloc::{AllocError, AllocFailed, Global};
    use crate::rt::requests;
    use core::ops::{Deref, DerefMut};
    use memory::collections::TryReserveError;
    pub use memory::vec::IntoIter;

    /// Reserves room for so many more items by one of the calls of a vector, unless it is there.
    /// Each request for memory of the proved code goes through here.
    #[inline]
    pub fn make_room<T>(
        items: &mut memory::vec::Vec<T>,
        more: usize,
        reserve: fn(&mut memory::vec::Vec<T>, usize) -> Result<(), TryReserveError>,
    ) -> Result<(), AllocError> {
        if more <= items.capacity() - items.len() {
            return Ok(());
        }
        if requests::is_refused() {
            return Err(AllocError);
        }
        reserve(items, more).map_err(|_| AllocError)
    }

    /// Rust's vector, with calls that return an error if memory runs out.
    #[derive(Debug, PartialEq, Eq, PartialOrd, Ord, Hash)]
    #[repr(transparent)]
    pub struct Vec<T>(pub memory::vec::Vec<T>);

    impl<T> Deref for Vec<T> {
        type Target = [T];

        #[inline(always)]
        fn deref(&self) -> &[T] {
            &self.0
        }
    }

    impl<T> DerefMut for Vec<T> {
        #[inline(always)]
        fn deref_mut(&mut self) -> &mut [T] {
            &mut self.0
        }
    }

    impl<T> IntoIterator for Vec<T> {
        type Item = T;
        type IntoIter = IntoIter<T>;

        #[inline]
        fn into_iter(self) -> IntoIter<T> {
            self.0.into_iter()
        }
    }

    impl<'a, T> IntoIterator for &'a Vec<T> {
        type Item = &'a T;
        type IntoIter = core::slice::Iter<'a, T>;

        #[inline]
        fn into_iter(self) -> core::slice::Iter<'a, T> {
            self.0.iter()
        }
    }

    impl<T> Vec<T> {
        #[inline(always)]
        pub fn new(_: Global) -> Self {
            Vec(memory::vec::Vec::new())
        }

        #[inline]
        pub fn with_capacity(_: Global, n: usize) -> Result<Self, AllocError> {
            let mut made = memory::vec::Vec::new();
            make_room(&mut made, n, memory::vec::Vec::try_reserve_exact)?;
            Ok(Vec(made))
        }

        #[inline(always)]
        pub fn capacity(&self) -> usize {
            self.0.capacity()
        }

        #[inline(always)]
        pub fn as_slice(&self) -> &[T] {
            &self.0
        }

        #[inline(always)]
        pub fn as_mut_slice(&mut self) -> &mut [T] {
            &mut self.0
        }

        #[inline]
        pub fn reserve(&mut self, more: usize) -> Result<(), AllocError> {
            make_room(&mut self.0, more, memory::vec::Vec::try_reserve)
        }

        #[inline]
        pub fn reserve_exact(&mut self, more: usize) -> Result<(), AllocError> {
            make_room(&mut self.0, more, memory::vec::Vec::try_reserve_exact)
        }

        #[inline]
        pub fn push(&mut self, value: T) -> Result<(), AllocFailed<T>> {
            if self.reserve(1).is_err() {
                return Err(AllocFailed { value });
            }
            self.0.push(value);
            Ok(())
        }

        /// Where there is room, as a proof has shown.
        #[inline(always)]
        pub fn push_reserved(&mut self, value: T) {
            debug_assert!(self.0.len() < self.0.capacity());
            self.0.push(value);
        }

        #[inline(always)]
        pub fn pop(&mut self) -> Option<T> {
            self.0.pop()
        }

        #[inline(always)]
        pub fn truncate(&mut self, n: usize) {
            self.0.truncate(n);
        }

        #[inline]
        pub fn clear(&mut self) {
            self.0.clear();
        }

        #[inline]
        pub fn shrink_to(&mut self, n: usize) {
            self.0.shrink_to(n);
        }
    }

    impl<T: Copy> Vec<T> {
        #[inline]
        pub fn from_slice(alloc: Global, items: &[T]) -> Result<Self, AllocError> {
            let mut made = Vec::with_capacity(alloc, items.len())?;
            made.0.extend_from_slice(items);
            Ok(made)
        }

        #[inline]
        pub fn from_elem(alloc: Global, item: T, n: usize) -> Result<Self, AllocError> {
            let mut made = Vec::with_capacity(alloc, n)?;
            made.0.resize(n, item);
            Ok(made)
        }

        #[inline]
        pub fn extend_from_slice(&mut self, items: &[T]) -> Result<(), AllocError> {
            self.reserve(items.len())?;
            self.0.extend_from_slice(items);
            Ok(())
        }

        #[inline]
        pub fn extend_from_within<R: core::ops::RangeBounds<usize>>(
            &mut self,
            part: R,
        ) -> Result<(), AllocError> {
            let (from, to) = (part.start_bound().cloned(), part.end_bound().cloned());
            self.reserve(self.0[(from, to)].len())?;
            self.0.extend_from_within((from, to));
            Ok(())
        }

        #[inline]
        pub fn resize(&mut self, n: usize, item: T) -> Result<(), AllocError> {
            self.reserve(n.saturating_sub(self.0.len()))?;
            self.0.resize(n, item);
            Ok(())
        }
    }
}

/// What a guard holds until it is dropped, which takes it out.
pub struct Held<C>(Option<C>);

impl<C> Held<C> {
    #[inline(always)]
    pub fn new(held: C) -> Self {
        Held(Some(held))
    }

    #[inline(always)]
    pub fn take(&mut self) -> Option<C> {
        self.0.take()
    }
}

impl<C> core::ops::Deref for Held<C> {
    type Target = C;

    #[inline(always)]
    fn deref(&self) -> &C {
        self.0.as_ref().expect("held")
    }
}

impl<C> core::ops::DerefMut for Held<C> {
    #[inline(always)]
    fn deref_mut(&mut self) -> &mut C {
        self.0.as_mut().expect("held")
    }
}

/// The greatest boundary between characters up to `at`, as std's method of that name returns it
/// since 1.91.
pub fn floor_char_boundary(text: &str, at: usize) -> usize {
    if at >= text.len() {
        return text.len();
    }
    let mut floor = at;
    while !text.is_char_boundary(floor) {
        floor -= 1;
    }
    floor
}

/// A part of a place that is held in another form while calls of a caller run, and put back at the
/// end, also when one of them panics.
pub struct Returned<'a, T, C> {
    place: &'a mut T,
    held: Option<C>,
    back: fn(C) -> T,
}

impl<'a, T, C> Returned<'a, T, C> {
    pub fn new(place: &'a mut T, held: C, back: fn(C) -> T) -> Self {
        Returned {
            place,
            held: Some(held),
            back,
        }
    }
}

impl<T, C> core::ops::Deref for Returned<'_, T, C> {
    type Target = C;

    #[inline(always)]
    fn deref(&self) -> &C {
        self.held.as_ref().expect("held")
    }
}

impl<T, C> core::ops::DerefMut for Returned<'_, T, C> {
    #[inline(always)]
    fn deref_mut(&mut self) -> &mut C {
        self.held.as_mut().expect("held")
    }
}

impl<T, C> Drop for Returned<'_, T, C> {
    fn drop(&mut self) {
        if let Some(held) = self.held.take() {
            *self.place = (self.back)(held);
        }
    }
}
