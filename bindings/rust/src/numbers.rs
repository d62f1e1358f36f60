//! Maps from ranges of keys to numbers: the library's maps as they are.
use crate::batches::{Batches, Bindings, Within, hand_on};
use crate::ffi::{self, Crossing, Handle, OfTwo, RawEntry, RawPiece, RawRange, done, inserted};
use crate::range::sealed::{Native, Numbered};
use crate::range::{Key, Range, range_of, raw_range};
use crate::{InsertedOnly, NoMemory, NotInserted, NotLoaded};
use std::fmt;
use std::hash::{Hash, Hasher};
use std::iter::FusedIterator;
use std::marker::PhantomData;
use std::ops::RangeBounds;

/// A map of keys to numbers, kept as ranges: ranges that touch and have equal numbers are one.
///
/// It is the proved map itself, for values that are numbers or places in a table of one's own, and for programs that go on
/// where memory runs out: a call says so by an error then and leaves the map as it was; [`NumberMap::insert_many`] tells how
/// many ranges it has inserted. Iterators, `Debug` and `Hash` allocate as std does, and abort.
///
/// What any call answers is what `btree_range_map.h` says of it. A range that has no start or no end is stored so of keys of
/// 64 and of 128 bits but `usize` and `isize`; of others it ends at the least or the greatest key. [`Range::to_inclusive`] tells of the keys in either
/// case. A map of `u64` or `i64` keys is saved as JSON by [`NumberMap::to_json`], and read by [`NumberMap::load_json`].
///
/// ```
/// use btree_range_map_proved::NumberMap;
///
/// let mut map: NumberMap<u64> = NumberMap::new()?;
/// map.insert(0..10, 1)?;
/// map.insert(4..=5, 2)?;
/// assert_eq!((map.get(5), map.len(), map.key_count()), (Some(2), 3, 10));
/// # Ok::<(), btree_range_map_proved::NoMemory>(())
/// ```
pub struct NumberMap<K: Key> {
    pub(crate) handle: Handle,
    _keys: PhantomData<K>,
}

/// How many stored ranges `few_from` reads.
const FEW: usize = 4;

fn calls<K: Key>() -> &'static ffi::Calls<K::Native, RawEntry<K::Native>> {
    K::Native::CALLS
}

pub(crate) fn raw<K: Key>(range: &impl RangeBounds<K>) -> RawRange<K::Native> {
    raw_range(range, K::IS_NATIVE, K::number)
}

fn shown<K: Key>(entry: RawEntry<K::Native>) -> (Range<K>, u64) {
    (range_of(&entry.range, K::of_number), entry.value)
}

fn found<K: Key>(call: impl FnOnce(&mut RawEntry<K::Native>) -> u32) -> Option<(Range<K>, u64)> {
    let mut entry = RawEntry::default();
    (call(&mut entry) == ffi::DONE).then(|| shown::<K>(entry))
}

impl<K: Key> From<Handle> for NumberMap<K> {
    /// The map that the handle is open on, whose keys these are.
    fn from(handle: Handle) -> NumberMap<K> {
        NumberMap { handle, _keys: PhantomData }
    }
}

// SAFETY, of each call below: the handle is the map's own, open on a map of these keys, and written by no other call, by
// the references to the map. A second handle in a call is another one: it is new, or borrowed apart in `append`, or the
// caller of `with` has compared the two. An array is as long as is said, and initialised, as are the locals written to.
impl<K: Key> NumberMap<K> {
    /// A map that binds no key.
    pub fn new() -> Result<NumberMap<K>, NoMemory> {
        let handle = Handle::opened(|made| unsafe { (calls::<K>().create)(made) })?;
        Ok(NumberMap { handle, _keys: PhantomData })
    }

    /// Binds each key of the range to the number.
    pub fn insert(&mut self, range: impl RangeBounds<K>, number: u64) -> Result<(), NoMemory> {
        done(unsafe { (K::Native::BINDS.insert)(self.handle.get_mut(), &raw(&range), number) })
    }

    /// Binds each key of a range that neither meets nor touches a stored one.
    pub fn insert_disconnected(
        &mut self,
        range: impl RangeBounds<K>,
        number: u64,
    ) -> Result<(), NotInserted> {
        inserted(unsafe {
            (K::Native::BINDS.insert_disconnected)(self.handle.get_mut(), &raw(&range), number)
        })
    }

    /// Binds each key of a range that meets no stored one. It may touch stored ranges.
    pub fn try_insert(&mut self, range: impl RangeBounds<K>, number: u64) -> Result<(), NotInserted> {
        inserted(unsafe { (K::Native::BINDS.try_insert)(self.handle.get_mut(), &raw(&range), number) })
    }

    /// Binds the keys of each range to the number beside it, one after the other, in a few calls of the library.
    pub fn insert_many<R: RangeBounds<K>>(
        &mut self,
        pairs: impl IntoIterator<Item = (R, u64)>,
    ) -> Result<(), InsertedOnly> {
        let entries = pairs.into_iter().map(|(range, value)| RawEntry { range: raw(&range), value });
        hand_on(entries, self.is_empty(), |from, size, count| unsafe {
            (K::Native::BINDS.insert_many)(self.handle.get_mut(), from, size, count)
        })
    }

    /// Binds no key of the range.
    pub fn remove(&mut self, range: impl RangeBounds<K>) -> Result<(), NoMemory> {
        done(unsafe { (calls::<K>().remove)(self.handle.get_mut(), &raw(&range)) })
    }

    /// Takes all ranges away, and keeps their memory for others.
    pub fn clear(&mut self) {
        self.handle.clear();
    }

    /// The number that the key is bound to.
    pub fn get(&self, key: K) -> Option<u64> {
        self.get_key_value(key).map(|(_, number)| number)
    }

    /// The numbers that the keys are bound to, in their order, looked up many in one call of the library.
    ///
    /// ```
    /// # let mut map = btree_range_map_proved::NumberMap::new()?;
    /// map.insert(0..10, 1)?;
    /// assert_eq!(map.get_many([5, 10, 9]).collect::<Vec<_>>(), [Some(1), None, Some(1)]);
    /// # let _: btree_range_map_proved::NumberMap<u64> = map;
    /// # Ok::<(), btree_range_map_proved::NoMemory>(())
    /// ```
    pub fn get_many<'a>(
        &'a self,
        keys: impl IntoIterator<Item = K> + 'a,
    ) -> impl Iterator<Item = Option<u64>> + 'a {
        Bindings::new(&self.handle, keys.into_iter().map(K::number))
    }

    /// The stored range that holds the key, with its number.
    pub fn get_key_value(&self, key: K) -> Option<(Range<K>, u64)> {
        found(|it| unsafe { (calls::<K>().get)(self.handle.get(), key.number().alone(), it) })
    }

    /// The former name of [`NumberMap::get_key_value`].
    #[deprecated(since = "0.3.3", note = "use `get_key_value`, as std and rangemap name it")]
    pub fn get_range_value(&self, key: K) -> Option<(Range<K>, u64)> {
        self.get_key_value(key)
    }

    /// Whether the key is bound.
    pub fn contains_key(&self, key: K) -> bool {
        (unsafe { (calls::<K>().contains)(self.handle.get(), key.number().alone()) }) == ffi::DONE
    }

    /// Whether some key of the range is bound.
    #[doc(alias = "overlaps")]
    pub fn intersects(&self, range: impl RangeBounds<K>) -> bool {
        (unsafe { (calls::<K>().intersects)(self.handle.get(), &raw(&range)) }) == ffi::DONE
    }

    /// How many ranges are stored. The number of keys is [`NumberMap::key_count`].
    pub fn len(&self) -> usize {
        self.handle.count()
    }

    /// The former name of [`NumberMap::len`].
    #[deprecated(since = "0.3.3", note = "use `len`, as std, rangemap and `RangeMap` name it")]
    pub fn range_count(&self) -> usize {
        self.len()
    }

    /// Whether no key is bound.
    pub fn is_empty(&self) -> bool {
        self.len() == 0
    }

    /// How many keys are bound; of all keys of 128 bits, which are one more than it can say, `u128::MAX`. Goes over all
    /// stored ranges.
    pub fn key_count(&self) -> u128 {
        self.iter().fold(0, |sum: u128, (range, _)| sum.saturating_add(range.len()))
    }

    /// The first stored range, with its number.
    pub fn first_range_value(&self) -> Option<(Range<K>, u64)> {
        found(|it| unsafe { (calls::<K>().first)(self.handle.get(), it) })
    }

    /// The last stored range, with its number.
    pub fn last_range_value(&self) -> Option<(Range<K>, u64)> {
        found(|it| unsafe { (calls::<K>().last)(self.handle.get(), it) })
    }

    /// The first stored range that ends at the key or after it, with its number.
    pub fn next(&self, key: K) -> Option<(Range<K>, u64)> {
        found(|it| unsafe { (calls::<K>().next)(self.handle.get(), key.number().alone(), it) })
    }

    /// The last stored range that starts at the key or before it, with its number.
    pub fn previous(&self, key: K) -> Option<(Range<K>, u64)> {
        found(|it| unsafe { (calls::<K>().previous)(self.handle.get(), key.number().alone(), it) })
    }

    /// Takes the first stored range out.
    pub fn pop_first(&mut self) -> Option<(Range<K>, u64)> {
        found(|it| unsafe { (calls::<K>().pop_first)(self.handle.get_mut(), it) })
    }

    /// Takes the last stored range out.
    pub fn pop_last(&mut self) -> Option<(Range<K>, u64)> {
        found(|it| unsafe { (calls::<K>().pop_last)(self.handle.get_mut(), it) })
    }

    /// The stored ranges with their numbers, from both ends.
    pub fn iter(&self) -> Iter<'_, K> {
        Iter { batches: Batches::new(&self.handle, calls::<K>(), (K::LEAST.number(), K::GREATEST.number())) }
    }

    /// The first few stored ranges that end at the key or after it, with their numbers, in ascending order.
    pub(crate) fn few_from(&self, key: K) -> [Option<(Range<K>, u64)>; FEW] {
        let (mut entries, mut count) = ([RawEntry::default(); FEW], 0);
        unsafe {
            (calls::<K>().read)(self.handle.get(), key.number().alone(), entries.as_mut_ptr(), FEW, &mut count)
        };
        std::array::from_fn(|at| (at < count).then(|| shown::<K>(entries[at])))
    }

    /// The stored ranges that meet the range, whole, with their numbers, in ascending order.
    pub fn overlapping(&self, range: impl RangeBounds<K>) -> Overlapping<'_, K> {
        Overlapping { found: Within::new(&self.handle, calls::<K>().overlapping, raw(&range)) }
    }

    /// The parts of the range that hold no bound key, in ascending order.
    pub fn gaps(&self, range: impl RangeBounds<K>) -> Gaps<'_, K> {
        Gaps { found: Within::new(&self.handle, calls::<K>().gaps, raw(&range)) }
    }

    /// The parts of the range in ascending order, each as wide as it goes, with the number that it is bound to, if it is.
    pub fn pieces(&self, range: impl RangeBounds<K>) -> Pieces<'_, K> {
        Pieces { found: Within::new(&self.handle, K::Native::BINDS.pieces, raw(&range)) }
    }

    /// Keeps of the map what lies before the key, and returns the rest. After an error the map is as it was.
    pub fn split_off(&mut self, key: K) -> Result<NumberMap<K>, NoMemory> {
        let mut rest = NumberMap::new()?;
        done(unsafe {
            (K::Native::BINDS.split_off)(self.handle.get_mut(), key.number().alone(), rest.handle.get_mut())
        })?;
        Ok(rest)
    }

    /// Moves all ranges of the other map, each of which lies after all of this one, to its end. After an error both
    /// maps are as they were.
    pub fn append(&mut self, other: &mut NumberMap<K>) -> Result<(), NotInserted> {
        inserted(unsafe { (K::Native::BINDS.append)(self.handle.get_mut(), other.handle.get_mut()) })
    }

    /// A map that binds each key as the other does, or else as this one does.
    pub fn overlay(&self, other: &NumberMap<K>) -> Result<NumberMap<K>, NoMemory> {
        if std::ptr::eq(self, other) { self.try_clone() } else { self.with(other, ffi::brm_raw_overlay) }
    }

    /// A map that binds those keys of this one that the other binds too, each as this one does.
    pub fn restrict(&self, other: &NumberMap<K>) -> Result<NumberMap<K>, NoMemory> {
        if std::ptr::eq(self, other) { self.try_clone() } else { self.with(other, ffi::brm_raw_restrict) }
    }

    /// A map that binds those keys of this one that the other does not bind, each as this one does.
    pub fn without(&self, other: &NumberMap<K>) -> Result<NumberMap<K>, NoMemory> {
        if std::ptr::eq(self, other) { NumberMap::new() } else { self.with(other, ffi::brm_raw_without) }
    }

    /// What the call makes of this map and another one.
    fn with(&self, other: &NumberMap<K>, call: OfTwo) -> Result<NumberMap<K>, NoMemory> {
        let handle = Handle::opened(|made| unsafe { call(self.handle.get(), other.handle.get(), made) })?;
        Ok(NumberMap { handle, _keys: PhantomData })
    }

    /// A map with the same ranges and numbers.
    pub fn try_clone(&self) -> Result<NumberMap<K>, NoMemory> {
        Ok(NumberMap { handle: self.handle.copied()?, _keys: PhantomData })
    }
}

/// JSON, for the key types that the library has maps of: `u64` and `i64`.
impl<K: Key + Native> NumberMap<K> {
    /// What is stored as JSON text.
    pub fn to_json(&self) -> Result<String, NoMemory> {
        self.handle.to_json()
    }

    /// Becomes what the JSON text is read as. After an error the map is as it was.
    pub fn load_json(&mut self, text: &str) -> Result<(), NotLoaded> {
        self.handle.load_json(text)
    }
}

impl<K: Key> PartialEq for NumberMap<K> {
    /// Whether both bind each key alike. Goes once over both.
    fn eq(&self, other: &NumberMap<K>) -> bool {
        self.handle.equals(&other.handle)
    }
}

impl<K: Key> Eq for NumberMap<K> {}

impl<K: Key + Hash> Hash for NumberMap<K> {
    fn hash<H: Hasher>(&self, state: &mut H) {
        self.len().hash(state);
        self.iter().for_each(|(range, number)| (range.ends(), number).hash(state));
    }
}

impl<K: Key> fmt::Debug for NumberMap<K> {
    fn fmt(&self, f: &mut fmt::Formatter<'_>) -> fmt::Result {
        f.debug_map().entries(self.iter().map(|(range, number)| (range.bounded(), number))).finish()
    }
}

/// The stored ranges of a [`NumberMap`] with their numbers, in ascending order, from both ends.
#[derive(Clone)]
pub struct Iter<'a, K: Key> {
    batches: Batches<'a, <K as Numbered>::Native, RawEntry<<K as Numbered>::Native>>,
}

impl<K: Key> Iterator for Iter<'_, K> {
    type Item = (Range<K>, u64);

    #[inline]
    fn next(&mut self) -> Option<(Range<K>, u64)> {
        self.batches.next().map(shown::<K>)
    }

    #[inline]
    fn fold<T, F: FnMut(T, Self::Item) -> T>(self, made: T, mut call: F) -> T {
        self.batches.fold(made, |made, entry| call(made, shown::<K>(entry)))
    }

    fn size_hint(&self) -> (usize, Option<usize>) {
        (self.batches.left(), Some(self.batches.left()))
    }
}

impl<K: Key> DoubleEndedIterator for Iter<'_, K> {
    #[inline]
    fn next_back(&mut self) -> Option<(Range<K>, u64)> {
        self.batches.next_back().map(shown::<K>)
    }
}

impl<K: Key> ExactSizeIterator for Iter<'_, K> {}

impl<K: Key> FusedIterator for Iter<'_, K> {}

impl<'a, K: Key> IntoIterator for &'a NumberMap<K> {
    type Item = (Range<K>, u64);
    type IntoIter = Iter<'a, K>;

    fn into_iter(self) -> Iter<'a, K> {
        self.iter()
    }
}

/// The stored ranges of a [`NumberMap`] that meet a range, with their numbers, in ascending order.
#[derive(Clone)]
pub struct Overlapping<'a, K: Key> {
    found: Within<'a, <K as Numbered>::Native, RawEntry<<K as Numbered>::Native>>,
}

impl<K: Key> Iterator for Overlapping<'_, K> {
    type Item = (Range<K>, u64);

    fn next(&mut self) -> Option<(Range<K>, u64)> {
        self.found.next().map(shown::<K>)
    }
}

impl<K: Key> FusedIterator for Overlapping<'_, K> {}

/// The parts of a range that hold no bound key of a [`NumberMap`], in ascending order.
#[derive(Clone)]
pub struct Gaps<'a, K: Key> {
    found: Within<'a, <K as Numbered>::Native, RawRange<<K as Numbered>::Native>>,
}

impl<K: Key> Iterator for Gaps<'_, K> {
    type Item = Range<K>;

    fn next(&mut self) -> Option<Range<K>> {
        self.found.next().map(|range| range_of(&range, K::of_number))
    }
}

impl<K: Key> FusedIterator for Gaps<'_, K> {}

/// The parts of a range, in ascending order, with the numbers that they are bound to in a [`NumberMap`].
#[derive(Clone)]
pub struct Pieces<'a, K: Key> {
    found: Within<'a, <K as Numbered>::Native, RawPiece<<K as Numbered>::Native>>,
}

impl<K: Key> Iterator for Pieces<'_, K> {
    type Item = (Range<K>, Option<u64>);

    fn next(&mut self) -> Option<(Range<K>, Option<u64>)> {
        self.found.next().map(|piece| (range_of(&piece.range, K::of_number), piece.binding.value()))
    }
}

impl<K: Key> FusedIterator for Pieces<'_, K> {}
