//! Sets of keys.
use crate::batches::{Batches, Within, hand_on};
use crate::ffi::{self, Calls, Crossing, Handle, OfTwo, RawRange, done, inserted};
use crate::range::sealed::{Numbered, Placed};
use crate::range::{Key, Range, range_of, raw_range};
use crate::{NoMemory, NotInserted};
use std::fmt;
use std::hash::{Hash, Hasher};
use std::iter::FusedIterator;
use std::marker::PhantomData;
use std::ops::{BitAnd, BitOr, BitXor, RangeBounds, Sub};

/// A set of keys, kept as ranges that neither meet nor touch.
///
/// Where memory runs out, a call panics; [`RangeSet::try_add`], [`RangeSet::try_insert`] and [`RangeSet::try_remove`] answer
/// by an error. Iterators, `Debug` and `Hash` allocate as std does.
///
/// ```
/// use btree_range_map_proved::RangeSet;
///
/// let letters: RangeSet<char> = ['a'..='z', 'A'..='Z'].into_iter().collect();
/// let vowels: RangeSet<char> = ["aeiou", "AEIOU"].concat().chars().map(|it| it..=it).collect();
/// let consonants = &letters - &vowels;
/// assert_eq!((consonants.key_count(), consonants.contains('b'), consonants.contains('e')), (42, true, false));
/// assert!(consonants.is_subset(&letters));
/// ```
pub struct RangeSet<K: Key> {
    handle: Handle,
    _keys: PhantomData<K>,
}

const NO_MEMORY: &str = "out of memory";

fn calls<K: Key>() -> &'static Calls<K::Place, RawRange<K::Place>> {
    K::Place::CALLS
}

fn raw<K: Key>(range: &impl RangeBounds<K>) -> RawRange<K::Place> {
    raw_range(range, K::IS_NATIVE, K::place)
}

fn found<K: Key>(call: impl FnOnce(&mut RawRange<K::Place>) -> u32) -> Option<Range<K>> {
    let mut range = RawRange::default();
    (call(&mut range) == ffi::DONE).then(|| range_of(&range, K::of_place))
}

// SAFETY, of each call below: the handle is the set's own, open on a set, and written by no other call, by the references
// to the set. A second handle in a call is another one: it is new, or the caller of `with` has compared the two. An array
// is as long as is said, and initialised, as are the locals written to.
impl<K: Key> RangeSet<K> {
    /// A set without a key.
    pub fn new() -> RangeSet<K> {
        RangeSet::opened(|made| unsafe { (calls::<K>().create)(made) }).expect(NO_MEMORY)
    }

    fn opened(open: impl FnOnce(*mut ffi::RawHandle) -> u32) -> Result<RangeSet<K>, NoMemory> {
        Ok(RangeSet { handle: Handle::opened(open)?, _keys: PhantomData })
    }

    /// Adds each key of the range.
    pub fn insert(&mut self, range: impl RangeBounds<K>) {
        self.try_add(range).expect(NO_MEMORY);
    }

    /// Adds each key of the range. After an error the set is as it was.
    ///
    /// ```
    /// # use btree_range_map_proved::RangeSet;
    /// let mut set: RangeSet<u8> = [0..9].into();
    /// assert_eq!(set.try_add(8..12), Ok(()));
    /// assert_eq!(set, [0..12].into());
    /// ```
    pub fn try_add(&mut self, range: impl RangeBounds<K>) -> Result<(), NoMemory> {
        done(unsafe { (K::Place::ADDS.insert)(self.handle.get_mut(), &raw(&range)) })
    }

    /// Adds each key of a range that meets no stored one. It may touch stored ranges. After an error the set is as it
    /// was.
    ///
    /// ```
    /// # use btree_range_map_proved::{NotInserted, RangeSet};
    /// let mut set: RangeSet<u8> = [0..5].into();
    /// assert_eq!(set.try_insert(5..9), Ok(())); // it only touches 0..5
    /// assert_eq!(set.try_insert(8..12), Err(NotInserted::Occupied)); // 0..9 is in the way
    /// assert_eq!(set, [0..9].into());
    /// ```
    pub fn try_insert(&mut self, range: impl RangeBounds<K>) -> Result<(), NotInserted> {
        inserted(unsafe { (K::Place::ADDS.try_insert)(self.handle.get_mut(), &raw(&range)) })
    }

    /// Takes each key of the range away.
    pub fn remove(&mut self, range: impl RangeBounds<K>) {
        self.try_remove(range).expect(NO_MEMORY);
    }

    /// Takes each key of the range away. After an error the set is as it was.
    ///
    /// ```
    /// # use btree_range_map_proved::RangeSet;
    /// let mut set: RangeSet<u8> = [0..9].into();
    /// assert_eq!(set.try_remove(3..5), Ok(()));
    /// assert_eq!(set, [0..3, 5..9].into());
    /// ```
    pub fn try_remove(&mut self, range: impl RangeBounds<K>) -> Result<(), NoMemory> {
        done(unsafe { (calls::<K>().remove)(self.handle.get_mut(), &raw(&range)) })
    }

    /// Takes all keys away, and keeps their memory for others.
    pub fn clear(&mut self) {
        self.handle.clear();
    }

    /// The stored range that holds the key.
    pub fn get(&self, key: K) -> Option<Range<K>> {
        found(|it| unsafe { (calls::<K>().get)(self.handle.get(), key.place().alone(), it) })
    }

    /// Whether the key is in the set.
    pub fn contains(&self, key: K) -> bool {
        (unsafe { (calls::<K>().contains)(self.handle.get(), key.place().alone()) }) == ffi::DONE
    }

    /// Whether some key of the range is in the set.
    #[doc(alias = "overlaps")]
    pub fn intersects(&self, range: impl RangeBounds<K>) -> bool {
        (unsafe { (calls::<K>().intersects)(self.handle.get(), &raw(&range)) }) == ffi::DONE
    }

    /// How many ranges are stored. The number of keys is [`RangeSet::key_count`].
    pub fn len(&self) -> usize {
        self.handle.count()
    }

    /// Whether there is no key.
    pub fn is_empty(&self) -> bool {
        self.len() == 0
    }

    /// How many keys there are; of all keys of 128 bits, which are one more than it can say, `u128::MAX`. Goes over all
    /// stored ranges.
    pub fn key_count(&self) -> u128 {
        self.iter().fold(0, |sum: u128, range| sum.saturating_add(range.len()))
    }

    /// The first stored range.
    pub fn first(&self) -> Option<Range<K>> {
        found(|it| unsafe { (calls::<K>().first)(self.handle.get(), it) })
    }

    /// The last stored range.
    pub fn last(&self) -> Option<Range<K>> {
        found(|it| unsafe { (calls::<K>().last)(self.handle.get(), it) })
    }

    /// The first stored range that ends at the key or after it.
    pub fn next(&self, key: K) -> Option<Range<K>> {
        found(|it| unsafe { (calls::<K>().next)(self.handle.get(), key.place().alone(), it) })
    }

    /// The last stored range that starts at the key or before it.
    pub fn previous(&self, key: K) -> Option<Range<K>> {
        found(|it| unsafe { (calls::<K>().previous)(self.handle.get(), key.place().alone(), it) })
    }

    /// Takes the first stored range out.
    pub fn pop_first(&mut self) -> Option<Range<K>> {
        found(|it| unsafe { (calls::<K>().pop_first)(self.handle.get_mut(), it) })
    }

    /// Takes the last stored range out.
    pub fn pop_last(&mut self) -> Option<Range<K>> {
        found(|it| unsafe { (calls::<K>().pop_last)(self.handle.get_mut(), it) })
    }

    /// The stored ranges, in ascending order, from both ends.
    pub fn iter(&self) -> Iter<'_, K> {
        Iter {
            batches: Batches::new(&self.handle, calls::<K>(), (K::LEAST.place(), K::GREATEST.place())),
            _keys: PhantomData,
        }
    }

    /// The stored ranges that meet the range, whole, in ascending order.
    pub fn overlapping(&self, range: impl RangeBounds<K>) -> impl Iterator<Item = Range<K>> {
        let mut found = Within::new(&self.handle, calls::<K>().overlapping, raw(&range));
        std::iter::from_fn(move || found.next().map(|range| range_of(&range, K::of_place)))
    }

    /// A set of the keys that are in either set.
    pub fn union(&self, other: &RangeSet<K>) -> RangeSet<K> {
        if std::ptr::eq(self, other) { self.clone() } else { self.with(other, ffi::brm_raw_set_union) }
    }

    /// A set of the keys that are in both sets.
    pub fn intersection(&self, other: &RangeSet<K>) -> RangeSet<K> {
        if std::ptr::eq(self, other) { self.clone() } else { self.with(other, ffi::brm_raw_set_intersection) }
    }

    /// A set of the keys of this set that are not in the other.
    pub fn difference(&self, other: &RangeSet<K>) -> RangeSet<K> {
        if std::ptr::eq(self, other) {
            RangeSet::new()
        } else {
            self.with(other, ffi::brm_raw_set_difference)
        }
    }

    /// A set of the keys that are in just one of the sets.
    pub fn symmetric_difference(&self, other: &RangeSet<K>) -> RangeSet<K> {
        if std::ptr::eq(self, other) {
            RangeSet::new()
        } else {
            self.with(other, ffi::brm_raw_set_symmetric_difference)
        }
    }

    /// What the call makes of this set and another one.
    fn with(&self, other: &RangeSet<K>, call: OfTwo) -> RangeSet<K> {
        RangeSet::opened(|made| unsafe { call(self.handle.get(), other.handle.get(), made) })
            .expect(NO_MEMORY)
    }

    /// A set of just the keys that this one does not hold.
    ///
    /// ```
    /// # use btree_range_map_proved::RangeSet;
    /// let set: RangeSet<u8> = [10..20].into();
    /// assert_eq!(set.complement(), [0..=9, 20..=255].into());
    /// ```
    pub fn complement(&self) -> RangeSet<K> {
        let mut others: RangeSet<K> =
            RangeSet::opened(|made| unsafe { ffi::brm_raw_set_complement(self.handle.get(), made) })
                .expect(NO_MEMORY);
        if !K::IS_NATIVE {
            // of keys that are fewer than those of the library
            let past = RawRange {
                start: K::GREATEST.place(),
                end: K::Place::default(),
                flags: ffi::START_EXCLUDED | ffi::END_UNBOUNDED,
            };
            let before = RawRange {
                start: K::Place::default(),
                end: K::LEAST.place(),
                flags: ffi::START_UNBOUNDED | ffi::END_EXCLUDED,
            };
            for range in [past, before] {
                done(unsafe { (calls::<K>().remove)(others.handle.get_mut(), &range) }).expect(NO_MEMORY);
            }
        }
        others
    }

    /// The parts of the range of which no key is in the set, in ascending order.
    pub fn gaps(&self, range: impl RangeBounds<K>) -> RangeSet<K> {
        let mut whole = RangeSet::new();
        whole.insert(range);
        whole.difference(self)
    }

    /// Whether each key of this set is in the other.
    pub fn is_subset(&self, other: &RangeSet<K>) -> bool {
        self.handle.answers(&other.handle, ffi::brm_raw_set_is_subset, true)
    }

    /// Whether each key of the other set is in this one.
    pub fn is_superset(&self, other: &RangeSet<K>) -> bool {
        other.is_subset(self)
    }

    /// Whether no key is in both sets.
    pub fn is_disjoint(&self, other: &RangeSet<K>) -> bool {
        self.handle.answers(&other.handle, ffi::brm_raw_set_is_disjoint, self.is_empty())
    }
}

impl<K: Key> Default for RangeSet<K> {
    fn default() -> RangeSet<K> {
        RangeSet::new()
    }
}

impl<K: Key> Clone for RangeSet<K> {
    fn clone(&self) -> RangeSet<K> {
        RangeSet { handle: self.handle.copied().expect(NO_MEMORY), _keys: PhantomData }
    }
}

/// Two sets are equal where they have the same keys.
impl<K: Key> PartialEq for RangeSet<K> {
    fn eq(&self, other: &RangeSet<K>) -> bool {
        self.handle.equals(&other.handle)
    }
}

impl<K: Key> Eq for RangeSet<K> {}

impl<K: Key + Hash> Hash for RangeSet<K> {
    fn hash<H: Hasher>(&self, state: &mut H) {
        self.len().hash(state);
        self.iter().for_each(|range| range.ends().hash(state));
    }
}

impl<K: Key> fmt::Debug for RangeSet<K> {
    fn fmt(&self, f: &mut fmt::Formatter<'_>) -> fmt::Result {
        f.debug_set().entries(self.iter().map(Range::bounded)).finish()
    }
}

macro_rules! operators {
    ($($operator:ident $method:ident $call:ident),*) => {$(
        impl<K: Key> $operator for &RangeSet<K> {
            type Output = RangeSet<K>;

            fn $method(self, other: &RangeSet<K>) -> RangeSet<K> {
                self.$call(other)
            }
        }
    )*};
}

operators!(
    BitOr bitor union,
    BitAnd bitand intersection,
    Sub sub difference,
    BitXor bitxor symmetric_difference
);

impl<K: Key, R: RangeBounds<K>> Extend<R> for RangeSet<K> {
    fn extend<I: IntoIterator<Item = R>>(&mut self, ranges: I) {
        let ranges = ranges.into_iter().map(|range| raw(&range));
        hand_on(ranges, false, |from, size, count| unsafe {
            (K::Place::ADDS.insert_many)(self.handle.get_mut(), from, size, count)
        })
        .expect(NO_MEMORY);
    }
}

impl<K: Key, R: RangeBounds<K>> FromIterator<R> for RangeSet<K> {
    fn from_iter<I: IntoIterator<Item = R>>(ranges: I) -> RangeSet<K> {
        let mut set = RangeSet::new();
        set.extend(ranges);
        set
    }
}

impl<K: Key, R: RangeBounds<K>, const N: usize> From<[R; N]> for RangeSet<K> {
    fn from(ranges: [R; N]) -> RangeSet<K> {
        ranges.into_iter().collect()
    }
}

/// The stored ranges of a [`RangeSet`], in ascending order, from both ends.
#[derive(Clone)]
pub struct Iter<'a, K: Key> {
    batches: Batches<'a, <K as Numbered>::Place, RawRange<<K as Numbered>::Place>>,
    _keys: PhantomData<K>,
}

fn shown<K: Key>(raw: RawRange<K::Place>) -> Range<K> {
    range_of(&raw, K::of_place)
}

impl<K: Key> Iterator for Iter<'_, K> {
    type Item = Range<K>;

    #[inline]
    fn next(&mut self) -> Option<Range<K>> {
        self.batches.next().map(shown)
    }

    #[inline]
    fn fold<T, F: FnMut(T, Self::Item) -> T>(self, made: T, mut call: F) -> T {
        self.batches.fold(made, |made, range| call(made, shown(range)))
    }

    fn size_hint(&self) -> (usize, Option<usize>) {
        (self.batches.left(), Some(self.batches.left()))
    }
}

impl<K: Key> DoubleEndedIterator for Iter<'_, K> {
    #[inline]
    fn next_back(&mut self) -> Option<Range<K>> {
        self.batches.next_back().map(shown)
    }
}

impl<K: Key> ExactSizeIterator for Iter<'_, K> {}

impl<K: Key> FusedIterator for Iter<'_, K> {}

impl<'a, K: Key> IntoIterator for &'a RangeSet<K> {
    type Item = Range<K>;
    type IntoIter = Iter<'a, K>;

    fn into_iter(self) -> Iter<'a, K> {
        self.iter()
    }
}

impl<K: Key> IntoIterator for RangeSet<K> {
    type Item = Range<K>;
    type IntoIter = std::vec::IntoIter<Range<K>>;

    fn into_iter(self) -> std::vec::IntoIter<Range<K>> {
        self.iter().collect::<Vec<_>>().into_iter()
    }
}
