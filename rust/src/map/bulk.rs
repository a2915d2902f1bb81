//! Many entries put in by one call.

use super::GenericPatriciaMap;
use crate::errors::{AllocError, LoadError, NotInOrder, loaded, need};
use crate::key::{BorrowedBytes, Bytes, Key};
use crate::rt::alloc::Global;
use crate::rt::vec::Vec as ProvedVec;
use core::cell::Cell;
use core::hint::black_box;
use core::mem;
use memory::vec::Vec;

/// How many entries ahead a key is read.
const AHEAD: usize = 6;

/// An entry of a list from which the value is taken while the key is lent.
pub(crate) type Entry<Q, V> = (Q, Cell<Option<V>>);

/// An entry whose value is there.
pub(crate) fn entry<Q, V>((key, value): (Q, V)) -> Entry<Q, V> {
    (key, Cell::new(Some(value)))
}

/// The bytes of an entry's key.
fn bytes<'e, K: Bytes, Q, V>(entry: &'e Entry<Q, V>) -> &'e [u8]
where
    Q: AsRef<K::Borrowed>,
    K::Borrowed: 'e,
{
    entry.0.as_ref().as_bytes()
}

/// The place of an entry in a list, and the first 16 bytes of its key as two numbers, which are in
/// the order of keys.
struct Place {
    front: [u64; 2],
    at: usize,
}

impl Place {
    fn new(key: &[u8], at: usize) -> Self {
        let number = |bytes: &[u8]| {
            let mut number = [0; 8];
            let len = bytes.len().min(8);
            number[..len].copy_from_slice(&bytes[..len]);
            u64::from_be_bytes(number)
        };
        Place {
            front: [number(key), number(key.get(8..).unwrap_or(&[]))],
            at,
        }
    }
}

/// The places of entries in the order of their keys. Of entries with one key the last has a place.
///
/// Most comparisons read only the first bytes of keys, which are stored with the places.
fn sorted_places<K: Bytes, Q, V>(list: &[Entry<Q, V>]) -> Result<Vec<Place>, AllocError>
where
    Q: AsRef<K::Borrowed>,
{
    let key = |at: usize| bytes::<K, Q, V>(&list[at]);
    let mut places = try_collect((0..list.len()).map(|at| Place::new(key(at), at)))?;
    places.sort_unstable_by(|x, y| {
        let by_key = || key(x.at).cmp(key(y.at));
        x.front
            .cmp(&y.front)
            .then_with(by_key)
            .then(y.at.cmp(&x.at))
    });
    places.dedup_by(|x, y| x.front == y.front && key(x.at) == key(y.at));
    Ok(places)
}

/// Takes the result of a load of entries that were sorted.
fn in_order(loaded: Result<(), LoadError>) -> Result<(), AllocError> {
    match loaded {
        Ok(()) => Ok(()),
        Err(LoadError::Memory) => Err(AllocError),
        Err(LoadError::NotInOrder) => panic!("the bytes of a key have changed"),
    }
}

/// Collects entries, or returns an error if memory runs out.
fn try_collect<T>(entries: impl Iterator<Item = T>) -> Result<Vec<T>, AllocError> {
    let mut list = ProvedVec::with_capacity(Global, entries.size_hint().0)?;
    for entry in entries {
        list.push(entry)?;
    }
    Ok(list.0)
}

impl<K: Bytes, V> GenericPatriciaMap<K, V> {
    /// Appends entries in key order to those of the map.
    fn load<'e, Q, I>(&mut self, entries: I) -> Result<(), LoadError>
    where
        Q: 'e + AsRef<K::Borrowed>,
        I: Iterator<Item = &'e Entry<Q, V>>,
        V: 'e,
        K::Borrowed: 'e,
    {
        self.map.sorted_load(entries.filter_map(|(key, value)| {
            let key = Key::<K>::new(key.as_ref());
            value.take().map(|value| (key, value))
        }))
    }

    /// Makes a map of a list of entries in any order.
    pub(crate) fn from_list<Q>(list: Vec<Entry<Q, V>>) -> Result<Self, AllocError>
    where
        Q: AsRef<K::Borrowed>,
    {
        let mut map = Self::new();
        if list.is_sorted_by(|x, y| bytes::<K, Q, V>(x) < bytes::<K, Q, V>(y)) {
            in_order(map.load(list.iter()))?;
        } else {
            let places = sorted_places::<K, Q, V>(&list)?;
            let loaded = map.load((0..places.len()).map(|i| {
                // the wait for a later key overlaps with the load of this one
                if let Some(later) = places.get(i + AHEAD) {
                    black_box(bytes::<K, Q, V>(&list[later.at]).first());
                }
                &list[places[i].at]
            }));
            in_order(loaded)?;
        }
        // before the map is the answer: that would leak if the drop of a value left over panicked
        drop(list);
        Ok(map)
    }

    /// Makes a map of entries in any order, or returns an error if memory runs out. Of entries with
    /// one key the last counts.
    pub fn try_from_iter<Q, I>(entries: I) -> Result<Self, AllocError>
    where
        Q: AsRef<K::Borrowed>,
        I: IntoIterator<Item = (Q, V)>,
    {
        let list = try_collect(entries.into_iter().map(entry))?;
        Self::from_list(list)
    }

    /// Inserts entries in turn. If memory runs out, those before the one for which it ran out are
    /// in the map, and the iterator is dropped.
    pub fn try_extend<Q, I>(&mut self, entries: I) -> Result<(), AllocError>
    where
        Q: AsRef<K::Borrowed>,
        I: IntoIterator<Item = (Q, V)>,
    {
        let before = self.len();
        for (key, value) in entries {
            self.try_insert(key, value)?;
        }
        self.map.settle_since(before);
        Ok(())
    }

    /// Makes a map of entries whose keys come in order, each after the one before it.
    ///
    /// ```
    /// use patricia::{NotInOrder, StringPatriciaMap};
    ///
    /// let map = StringPatriciaMap::from_sorted_iter([("a", 1), ("b", 2)]);
    /// assert_eq!(map.map(|map| map.len()), Ok(2));
    /// let map = StringPatriciaMap::from_sorted_iter([("b", 1), ("a", 2)]);
    /// assert_eq!(map.map(|map| map.len()), Err(NotInOrder));
    /// ```
    pub fn from_sorted_iter<Q, I>(entries: I) -> Result<Self, NotInOrder>
    where
        Q: AsRef<K::Borrowed>,
        I: IntoIterator<Item = (Q, V)>,
    {
        loaded(Self::try_from_sorted_iter(entries))
    }

    /// Does as `from_sorted_iter`, and also returns an error if memory runs out.
    pub fn try_from_sorted_iter<Q, I>(entries: I) -> Result<Self, LoadError>
    where
        Q: AsRef<K::Borrowed>,
        I: IntoIterator<Item = (Q, V)>,
    {
        let mut map = Self::new();
        map.try_sorted_load(entries)?;
        Ok(map)
    }

    /// Appends entries in key order: each has to come after the one before it, and the first one
    /// after those of the map. At the first that does not, those before it are in the map.
    pub fn sorted_load<Q, I>(&mut self, entries: I) -> Result<(), NotInOrder>
    where
        Q: AsRef<K::Borrowed>,
        I: IntoIterator<Item = (Q, V)>,
    {
        loaded(self.try_sorted_load(entries))
    }

    /// Does as `sorted_load`, and also returns an error if memory runs out: then the entries before
    /// the one for which it ran out are in the map, or none if the list of all keys has no room.
    pub fn try_sorted_load<Q, I>(&mut self, entries: I) -> Result<(), LoadError>
    where
        Q: AsRef<K::Borrowed>,
        I: IntoIterator<Item = (Q, V)>,
    {
        let list = try_collect(entries.into_iter().map(entry))?;
        self.load(list.iter())
    }

    /// Moves all entries of another map here. If both have a key, the other's value stays. The
    /// other map is left empty.
    pub fn append(&mut self, other: &mut Self) {
        need(self.try_append(other))
    }

    /// Does as `append`. If memory runs out, the entries before the one for which it ran out are
    /// here, and those from it on are dropped.
    pub fn try_append(&mut self, other: &mut Self) -> Result<(), AllocError> {
        self.try_merge_with(mem::take(other), |old, new| *old = new)
    }

    /// Puts the entries of another map in. If both have a key, a closure is called at the value
    /// here and the other one. If it panics, the entries before that key are here, the value here
    /// stays, and the other entries that are left are dropped.
    ///
    /// ```
    /// use patricia::StringPatriciaMap;
    ///
    /// let mut map = StringPatriciaMap::from_iter([("a", 1), ("b", 2)]);
    /// map.merge_with(StringPatriciaMap::from_iter([("b", 3), ("c", 4)]), |old, new| *old += new);
    /// assert_eq!(map.values().collect::<Vec<_>>(), [&1, &5, &4]);
    /// ```
    pub fn merge_with<F>(&mut self, other: Self, f: F)
    where
        F: FnMut(&mut V, V),
    {
        need(self.try_merge_with(other, f))
    }

    /// Does as `merge_with`. If memory runs out, the entries before the one for which it ran out
    /// are here, and those from it on are dropped.
    pub fn try_merge_with<F>(&mut self, other: Self, f: F) -> Result<(), AllocError>
    where
        F: FnMut(&mut V, V),
    {
        self.map.merge_with(other.map, f)
    }
}
