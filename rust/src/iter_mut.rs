//! Iterators that lend values to be changed.
//!
//! The proved code lends one value at a time. An iterator of Rust lends them side by side, so these
//! list the nodes first and take a reference to each value. No proof covers that.

use crate::errors::need;
use crate::iter::debug_by_name;
use crate::key::{BorrowedBytes, Bytes, Key};
use crate::parts::{self, Proved};
use crate::proved::patricia_nodes::arena::NodeArena;
use crate::proved::patricia_nodes::link::Link;
use crate::proved::patricia_store::body::Body;
use crate::proved::patricia_store::draft::span_of;
use crate::proved::patricia_store::labels::{Labels, Span};
use crate::proved::patricia_store::store::Store;
use crate::proved::patricia_walks::under::find_start;
use crate::proved::patricia_walks::value_progress::ValueProgress;
use crate::rt::alloc::{AllocError, Global};
use crate::rt::vec::Vec;
use core::fmt;
use core::iter::FusedIterator;
use core::marker::PhantomData;
use core::mem;

debug_by_name!(IterMut<'a, K, V>, IterPrefixMut<'a, K, V>, ValuesMut<'a, V>);

/// A node on a walk in key order.
struct Step {
    // the number of the node, or of the loan of its value
    slot: usize,
    // how many bytes are before its label
    front: usize,
    span: Span,
}

/// The number in a link.
fn number(link: Link) -> Option<usize> {
    link.get().map(|id| id.index())
}

/// Lists nodes in key order: the siblings from `first` on with all below them, whose keys have
/// `front` bytes before the labels of these siblings.
fn list_steps<V>(
    store: &Store<V>,
    first: Option<usize>,
    front: usize,
    steps: &mut Vec<Step>,
) -> Result<(), AllocError> {
    let mut waiting: Vec<(usize, usize)> = Vec::new(Global);
    let (mut next, mut front) = (first, front);
    loop {
        let Some(id) = next else {
            let Some((sibling, before)) = waiting.pop() else {
                return Ok(());
            };
            (next, front) = (Some(sibling), before);
            continue;
        };
        let span = span_of(store.heads[id], &store.bodies[id]);
        steps.push(Step {
            slot: id,
            front,
            span,
        })?;
        let (child, sibling) = (store.child(id), store.sibling(id));
        if child.is_none() {
            next = sibling;
            continue;
        }
        if let Some(sibling) = sibling {
            waiting.push((sibling, front))?;
        }
        front += store.labels.get(span).len();
        next = child;
    }
}

/// Entries whose values are lent.
struct Loans<'a, V> {
    labels: Option<&'a Labels>,
    steps: Vec<Step>,
    at: usize,
    path: Vec<u8>,
    // the value of the empty key, while it is due
    pending: Option<&'a mut V>,
    slots: Vec<Option<&'a mut V>>,
}

impl<'a, V> Loans<'a, V> {
    /// Those of no entry.
    fn none() -> Self {
        Loans {
            labels: None,
            steps: Vec::new(Global),
            at: 0,
            path: Vec::new(Global),
            pending: None,
            slots: Vec::new(Global),
        }
    }

    /// Those of all entries.
    fn all<K>(map: &'a mut Proved<K, V>) -> Result<Self, AllocError> {
        let parts = &mut map.tree.parts;
        let first = number(parts.arena.root);
        let store = &mut parts.arena.nodes.store;
        let mut steps = Vec::with_capacity(Global, store.len())?;
        list_steps(store, first, 0, &mut steps)?;
        let slots = lend_all(&mut store.bodies)?;
        let pending = parts.value.as_mut();
        Ok(Loans {
            labels: Some(&store.labels),
            steps,
            slots,
            pending,
            ..Loans::none()
        })
    }

    /// Those of the entries under a prefix that is not empty.
    fn under<K: Bytes>(map: &'a mut Proved<K, V>, prefix: Key<'_, K>) -> Result<Self, AllocError> {
        let arena: &mut NodeArena<V> = &mut map.tree.parts.arena;
        let Some(start) = find_start(arena, prefix) else {
            return Ok(Loans::none());
        };
        let (top, front) = (start.top.index(), start.front);
        let path = Vec::from_slice(Global, &prefix.get().as_bytes()[..front])?;
        let store = &mut arena.nodes.store;
        let span = span_of(store.heads[top], &store.bodies[top]);
        let mut steps = Vec::new(Global);
        steps.push(Step {
            slot: top,
            front,
            span,
        })?;
        let below = front + store.labels.get(span).len();
        list_steps(store, store.child(top), below, &mut steps)?;
        let slots = lend_some(&mut store.bodies, &mut steps)?;
        Ok(Loans {
            labels: Some(&store.labels),
            steps,
            path,
            slots,
            ..Loans::none()
        })
    }

    /// The next entry. An error leaves it to be the next one.
    #[inline]
    fn try_next<K: Bytes>(&mut self) -> Result<Option<(K, &'a mut V)>, AllocError> {
        if self.pending.is_some() {
            let key = K::try_from_bytes(&[])?;
            return Ok(self.pending.take().map(|value| (key, value)));
        }
        let Some(labels) = self.labels else {
            return Ok(None);
        };
        while let Some(step) = self.steps.get(self.at) {
            self.path.truncate(step.front);
            self.path.extend_from_slice(labels.get(step.span))?;
            let slot = &mut self.slots[step.slot];
            if slot.is_some() {
                let key = K::try_from_bytes(&self.path)?;
                self.at += 1;
                return Ok(slot.take().map(|value| (key, value)));
            }
            self.at += 1;
        }
        Ok(None)
    }
}

/// Lends the values of all nodes, in the order of their numbers.
fn lend_all<V>(bodies: &mut Vec<Body<V>>) -> Result<Vec<Option<&mut V>>, AllocError> {
    let mut slots = Vec::with_capacity(Global, bodies.len())?;
    for body in bodies.iter_mut() {
        slots.push_reserved(body.value_mut());
    }
    Ok(slots)
}

/// Lends the values of the nodes of some steps, and puts the numbers of the loans in the place of
/// those of the nodes.
fn lend_some<'a, V>(
    bodies: &'a mut Vec<Body<V>>,
    steps: &mut Vec<Step>,
) -> Result<Vec<Option<&'a mut V>>, AllocError> {
    let mut slots = Vec::with_capacity(Global, steps.len())?;
    let mut order = Vec::with_capacity(Global, steps.len())?;
    for (at, step) in steps.iter().enumerate() {
        order.push_reserved((step.slot, at));
    }
    order.sort_unstable();
    let mut rest: &mut [Body<V>] = bodies;
    let mut passed = 0;
    for &(id, at) in order.iter() {
        let (_, after) = mem::take(&mut rest).split_at_mut(id - passed);
        let Some((body, after)) = after.split_first_mut() else {
            break;
        };
        steps[at].slot = slots.len();
        slots.push_reserved(body.value_mut());
        (rest, passed) = (after, id + 1);
    }
    Ok(slots)
}

/// An iterator over the entries of a map, in key order, whose values can be changed.
///
/// It makes each key when it returns it. When it is made it allocates, in proportion to the map.
pub struct IterMut<'a, K, V: 'a> {
    loans: Result<Loans<'a, V>, AllocError>,
    left: usize,
    kind: PhantomData<fn() -> K>,
}

impl<'a, K: Bytes, V: 'a> IterMut<'a, K, V> {
    pub(crate) fn new(map: &'a mut Proved<K, V>) -> Self {
        let left = parts::len(map);
        IterMut {
            loans: Loans::all(map),
            left,
            kind: PhantomData,
        }
    }

    /// Returns the next entry. If memory runs out it returns an error, and the next call tries the
    /// same entry; each call does so if memory ran out when the iterator was made.
    #[inline]
    pub fn try_next(&mut self) -> Result<Option<(K, &'a mut V)>, AllocError> {
        let loans = self.loans.as_mut().map_err(|error| *error)?;
        let entry = loans.try_next()?;
        self.left -= usize::from(entry.is_some());
        Ok(entry)
    }
}

impl<'a, K: Bytes, V: 'a> Iterator for IterMut<'a, K, V> {
    type Item = (K, &'a mut V);

    #[inline]
    fn next(&mut self) -> Option<Self::Item> {
        need(self.try_next())
    }

    fn size_hint(&self) -> (usize, Option<usize>) {
        (self.left, Some(self.left))
    }
}

impl<K: Bytes, V> ExactSizeIterator for IterMut<'_, K, V> {}
impl<K: Bytes, V> FusedIterator for IterMut<'_, K, V> {}

/// An iterator over the entries whose keys begin with a prefix, in key order, whose values can be
/// changed.
///
/// It makes each key when it returns it. When it is made it allocates, in proportion to the entries
/// under the prefix.
pub struct IterPrefixMut<'a, K, V: 'a> {
    loans: Result<Loans<'a, V>, AllocError>,
    kind: PhantomData<fn() -> K>,
}

impl<'a, K: Bytes, V: 'a> IterPrefixMut<'a, K, V> {
    pub(crate) fn new(map: &'a mut Proved<K, V>, prefix: Key<'_, K>) -> Self {
        let loans = match prefix.get().is_empty() {
            true => Loans::all(map),
            false => Loans::under(map, prefix),
        };
        IterPrefixMut {
            loans,
            kind: PhantomData,
        }
    }

    /// Returns the next entry. If memory runs out it returns an error, and the next call tries the
    /// same entry; each call does so if memory ran out when the iterator was made.
    #[inline]
    pub fn try_next(&mut self) -> Result<Option<(K, &'a mut V)>, AllocError> {
        self.loans.as_mut().map_err(|error| *error)?.try_next()
    }
}

impl<'a, K: Bytes, V: 'a> Iterator for IterPrefixMut<'a, K, V> {
    type Item = (K, &'a mut V);

    #[inline]
    fn next(&mut self) -> Option<Self::Item> {
        need(self.try_next())
    }
}

impl<K: Bytes, V> FusedIterator for IterPrefixMut<'_, K, V> {}

/// An iterator over the values of a map, in key order, which can be changed.
///
/// When it is made it allocates, in proportion to the map.
pub struct ValuesMut<'a, V: 'a> {
    loans: Result<ValueLoans<'a, V>, AllocError>,
    left: usize,
}

/// Values that are lent, and the numbers of their nodes in key order.
struct ValueLoans<'a, V> {
    pending: Option<&'a mut V>,
    order: Vec<usize>,
    at: usize,
    slots: Vec<Option<&'a mut V>>,
}

impl<'a, V> ValueLoans<'a, V> {
    fn new<K>(map: &'a mut Proved<K, V>) -> Result<Self, AllocError> {
        let parts = &mut map.tree.parts;
        let mut order = Vec::with_capacity(Global, parts.count)?;
        let mut progress = ValueProgress::new(Global, parts.arena.root);
        while let Some(id) = progress.next_node(&parts.arena.nodes)? {
            order.push(id.index())?;
        }
        let slots = lend_all(&mut parts.arena.nodes.store.bodies)?;
        Ok(ValueLoans {
            pending: parts.value.as_mut(),
            order,
            at: 0,
            slots,
        })
    }

    #[inline]
    fn next(&mut self) -> Option<&'a mut V> {
        if let Some(value) = self.pending.take() {
            return Some(value);
        }
        let id = *self.order.get(self.at)?;
        self.at += 1;
        self.slots[id].take()
    }
}

impl<'a, V: 'a> ValuesMut<'a, V> {
    pub(crate) fn new<K>(map: &'a mut Proved<K, V>) -> Self {
        let left = parts::len(map);
        ValuesMut {
            loans: ValueLoans::new(map),
            left,
        }
    }

    /// Returns the next value. Each call returns an error if memory ran out when the iterator was
    /// made.
    #[inline]
    pub fn try_next(&mut self) -> Result<Option<&'a mut V>, AllocError> {
        let value = self.loans.as_mut().map_err(|error| *error)?.next();
        self.left -= usize::from(value.is_some());
        Ok(value)
    }
}

impl<'a, V: 'a> Iterator for ValuesMut<'a, V> {
    type Item = &'a mut V;

    #[inline]
    fn next(&mut self) -> Option<Self::Item> {
        need(self.try_next())
    }

    fn size_hint(&self) -> (usize, Option<usize>) {
        (self.left, Some(self.left))
    }
}

impl<V> ExactSizeIterator for ValuesMut<'_, V> {}
impl<V> FusedIterator for ValuesMut<'_, V> {}
