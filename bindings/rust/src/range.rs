//! Ranges and keys, as callers write them and as they cross.
use crate::ffi::{self, Adds, Binds, Calls, Handle, RawBinding, RawEntry, RawRange, Wide};
use sealed::Numbered;
use std::fmt;
use std::ops::{self, Bound, RangeBounds};

/// A stored range: its start and its end, each of which it holds, does not hold, or has not.
///
/// The bounds are those that the library stores, so one range of keys may be written in several ways: `0..10` and `0..=9`.
/// [`Range::first`], [`Range::last`], [`Range::len`] and [`Range::to_inclusive`] tell of the keys alone.
#[derive(Clone, Copy, PartialEq, Eq, Hash)]
pub struct Range<K> {
    /// Where the keys start.
    pub start: Bound<K>,
    /// Where the keys end.
    pub end: Bound<K>,
}

impl<K: Clone> Range<K> {
    /// The range as this type has it.
    pub(crate) fn of(range: &impl RangeBounds<K>) -> Range<K> {
        Range { start: range.start_bound().cloned(), end: range.end_bound().cloned() }
    }
}

impl<K> RangeBounds<K> for Range<K> {
    fn start_bound(&self) -> Bound<&K> {
        self.start.as_ref()
    }

    fn end_bound(&self) -> Bound<&K> {
        self.end.as_ref()
    }
}

/// As Rust writes it: `1..5`, `1..=5`, `..5`, and a start that is not held as `1<..5`.
impl<K: fmt::Debug> fmt::Debug for Range<K> {
    fn fmt(&self, f: &mut fmt::Formatter<'_>) -> fmt::Result {
        match &self.start {
            Bound::Included(key) => write!(f, "{key:?}..")?,
            Bound::Excluded(key) => write!(f, "{key:?}<..")?,
            Bound::Unbounded => f.write_str("..")?,
        }
        match &self.end {
            Bound::Included(key) => write!(f, "={key:?}"),
            Bound::Excluded(key) => write!(f, "{key:?}"),
            Bound::Unbounded => Ok(()),
        }
    }
}

macro_rules! from_range {
    ($($range:ty),*) => {$(
        impl<K: Clone> From<$range> for Range<K> {
            fn from(range: $range) -> Range<K> {
                Range::of(&range)
            }
        }
    )*};
}

from_range!(
    ops::Range<K>,
    ops::RangeInclusive<K>,
    ops::RangeFrom<K>,
    ops::RangeTo<K>,
    ops::RangeToInclusive<K>,
    (Bound<K>, Bound<K>)
);

impl<K> From<ops::RangeFull> for Range<K> {
    fn from(_: ops::RangeFull) -> Range<K> {
        Range { start: Bound::Unbounded, end: Bound::Unbounded }
    }
}

/// A type of keys: an integer type, or `char`. In the library a key is its number, a `u64`, an `i64` or a `u128`; numbers of
/// keys that follow one another do so too.
pub trait Key: Copy + Ord + fmt::Debug + sealed::Numbered {
    /// The least key.
    const LEAST: Self;

    /// The greatest key.
    const GREATEST: Self;

    /// The next key, where there is one.
    fn successor(self) -> Option<Self>;

    /// The key before, where there is one.
    fn predecessor(self) -> Option<Self>;
}

pub(crate) mod sealed {
    use super::{Adds, Binds, Calls, Handle, RawBinding, RawEntry, RawRange};
    use crate::ffi::Crossing;

    /// A type of keys that the library has maps for.
    pub trait Native: Crossing {
        /// The calls on maps of these keys.
        const CALLS: &'static Calls<Self, RawEntry<Self>>;
        const BINDS: &'static Binds<Self, RawEntry<Self>>;

        /// Writes what each key is bound to in a map of such keys, in the place of the key.
        fn bindings(map: &Handle, keys: &[Self], found: &mut [RawBinding]);
    }

    /// A type of keys that the library has sets for.
    pub trait Placed: Crossing + Into<u128> {
        /// The calls on sets of these keys.
        const CALLS: &'static Calls<Self, RawRange<Self>>;
        const ADDS: &'static Adds<Self, RawRange<Self>>;
    }

    /// How a key crosses to the library.
    pub trait Numbered: Sized {
        type Native: Native;
        type Place: Placed;

        /// Whether the keys are as many as those of the library, so that a range without ends may be stored so.
        const IS_NATIVE: bool;

        fn number(self) -> Self::Native;

        /// The key of a number that a key has.
        fn of_number(number: Self::Native) -> Self;

        /// The key's place among all keys, from 0 on, as a set keeps it.
        fn place(self) -> Self::Place;

        fn of_place(place: Self::Place) -> Self;
    }
}

impl sealed::Native for u64 {
    const CALLS: &'static Calls<u64, RawEntry<u64>> = &ffi::unsigned::CALLS;
    const BINDS: &'static Binds<u64, RawEntry<u64>> = &ffi::unsigned_binds::BINDS;

    fn bindings(map: &Handle, keys: &[u64], found: &mut [RawBinding]) {
        // SAFETY: the arrays are as long as is said, and the handle is not written while it is borrowed
        unsafe {
            let (from, to) = (keys.as_ptr(), found.as_mut_ptr());
            ffi::brm_raw_map_u64_get_many(map.get(), from, keys.len(), to, found.len())
        };
    }
}

impl sealed::Native for i64 {
    const CALLS: &'static Calls<i64, RawEntry<i64>> = &ffi::signed::CALLS;
    const BINDS: &'static Binds<i64, RawEntry<i64>> = &ffi::signed_binds::BINDS;

    fn bindings(map: &Handle, keys: &[i64], found: &mut [RawBinding]) {
        // SAFETY: as above
        unsafe {
            let (from, to) = (keys.as_ptr(), found.as_mut_ptr());
            ffi::brm_raw_map_i64_get_many(map.get(), from, keys.len(), to, found.len())
        };
    }
}

impl sealed::Native for Wide {
    const CALLS: &'static Calls<Wide, RawEntry<Wide>> = &ffi::wide::CALLS;
    const BINDS: &'static Binds<Wide, RawEntry<Wide>> = &ffi::wide_binds::BINDS;

    fn bindings(map: &Handle, keys: &[Wide], found: &mut [RawBinding]) {
        for (key, found) in keys.iter().zip(found) {
            let mut entry = RawEntry::default();
            // SAFETY: the key and the entry are this function's own, and the handle is not written while it is borrowed
            let status = unsafe { (Wide::CALLS.get)(map.get(), key, &mut entry) };
            *found = RawBinding::of((status == ffi::DONE).then_some(entry.value));
        }
    }
}

impl sealed::Placed for u64 {
    const CALLS: &'static Calls<u64, RawRange<u64>> = &ffi::set::CALLS;
    const ADDS: &'static Adds<u64, RawRange<u64>> = &ffi::set_adds::ADDS;
}

impl sealed::Placed for Wide {
    const CALLS: &'static Calls<Wide, RawRange<Wide>> = &ffi::wide_set::CALLS;
    const ADDS: &'static Adds<Wide, RawRange<Wide>> = &ffi::wide_set_adds::ADDS;
}

macro_rules! integer_keys {
    ($native:ty, $is_native:expr, $place_type:ty, $place:expr, $of_place:expr, $($key:ty),*) => {
        integer_keys!(
            $native, $is_native, |key| key as $native, |number: $native| number as _, $place_type,
            |key| $place(key as $native), |place: $place_type| $of_place(place) as _, in $($key),*
        );
    };
    (
        $native:ty, $is_native:expr, $number:expr, $of_number:expr, $place_type:ty, $place:expr, $of_place:expr,
        in $($key:ty),*
    ) => {$(
        impl Key for $key {
            const LEAST: $key = <$key>::MIN;
            const GREATEST: $key = <$key>::MAX;

            fn successor(self) -> Option<$key> {
                self.checked_add(1)
            }

            fn predecessor(self) -> Option<$key> {
                self.checked_sub(1)
            }
        }

        impl sealed::Numbered for $key {
            type Native = $native;
            type Place = $place_type;
            const IS_NATIVE: bool = $is_native;

            fn number(self) -> $native {
                $number(self)
            }

            fn of_number(number: $native) -> $key {
                $of_number(number)
            }

            fn place(self) -> $place_type {
                $place(self)
            }

            fn of_place(place: $place_type) -> $key {
                $of_place(place)
            }
        }
    )*};
}

const SIGN: u64 = 1 << 63;

integer_keys!(u64, true, u64, |key: u64| key, |place: u64| place, u64);
integer_keys!(u64, false, u64, |key: u64| key, |place: u64| place, u8, u16, u32, usize);
integer_keys!(i64, true, u64, |key: i64| key as u64 ^ SIGN, |place: u64| (place ^ SIGN) as i64, i64);
integer_keys!(
    i64,
    false,
    u64,
    |key: i64| key as u64 ^ SIGN,
    |place: u64| (place ^ SIGN) as i64,
    i8,
    i16,
    i32,
    isize
);

macro_rules! wide_keys {
    ($($key:ty, $sign:expr);*) => {$(
        integer_keys!(
            Wide,
            true,
            |key: $key| Wide(key as u128 ^ $sign),
            |number: Wide| (number.0 ^ $sign) as $key,
            Wide,
            |key: $key| Wide(key as u128 ^ $sign),
            |place: Wide| (place.0 ^ $sign) as $key,
            in $key
        );
    )*};
}

wide_keys!(u128, 0; i128, 1 << 127);

/// How many code points are no characters, and which is the first.
const SURROGATES: u32 = 0x800;
const FIRST_SURROGATE: u32 = 0xd800;

impl Key for char {
    const LEAST: char = '\0';
    const GREATEST: char = char::MAX;

    fn successor(self) -> Option<char> {
        (self < char::MAX).then(|| char::of_number(self.number() + 1))
    }

    fn predecessor(self) -> Option<char> {
        self.number().checked_sub(1).map(char::of_number)
    }
}

impl sealed::Numbered for char {
    type Native = u64;
    type Place = u64;
    const IS_NATIVE: bool = false;

    fn number(self) -> u64 {
        let code = self as u32;
        u64::from(if code < FIRST_SURROGATE { code } else { code - SURROGATES })
    }

    fn of_number(number: u64) -> char {
        let number = number as u32;
        let code = if number < FIRST_SURROGATE { number } else { number + SURROGATES };
        char::from_u32(code).expect("the number of a character")
    }

    fn place(self) -> u64 {
        self.number()
    }

    fn of_place(place: u64) -> char {
        char::of_number(place)
    }
}

/// The range as the library reads it, by what `number` makes of keys. An unbounded end of keys that are not native is
/// their least or greatest key.
pub fn raw_range<K: Key, N: Default>(
    range: &impl RangeBounds<K>,
    is_native: bool,
    number: impl Fn(K) -> N,
) -> RawRange<N> {
    let (start, start_flag) = match range.start_bound() {
        Bound::Included(key) => (number(*key), 0),
        Bound::Excluded(key) => (number(*key), ffi::START_EXCLUDED),
        Bound::Unbounded if is_native => (N::default(), ffi::START_UNBOUNDED),
        Bound::Unbounded => (number(K::LEAST), 0),
    };
    let (end, end_flag) = match range.end_bound() {
        Bound::Included(key) => (number(*key), 0),
        Bound::Excluded(key) => (number(*key), ffi::END_EXCLUDED),
        Bound::Unbounded if is_native => (N::default(), ffi::END_UNBOUNDED),
        Bound::Unbounded => (number(K::GREATEST), 0),
    };
    RawRange { start, end, flags: start_flag | end_flag }
}

/// The range that the library wrote, by the key of a number.
#[inline]
pub fn range_of<K, N: Copy>(raw: &RawRange<N>, key: impl Fn(N) -> K) -> Range<K> {
    // nearly all have both ends
    if raw.flags & (ffi::START_UNBOUNDED | ffi::END_UNBOUNDED) != 0 {
        return unbounded_range(raw, key);
    }
    Range {
        start: held_or_not(raw.start, raw.flags & ffi::START_EXCLUDED, &key),
        end: held_or_not(raw.end, raw.flags & ffi::END_EXCLUDED, &key),
    }
}

#[inline]
fn held_or_not<K, N>(number: N, excluded: u32, key: &impl Fn(N) -> K) -> Bound<K> {
    if excluded == 0 { Bound::Included(key(number)) } else { Bound::Excluded(key(number)) }
}

#[cold]
fn unbounded_range<K, N: Copy>(raw: &RawRange<N>, key: impl Fn(N) -> K) -> Range<K> {
    let bound = |number, excluded, unbounded| match raw.flags & unbounded {
        0 => held_or_not(number, raw.flags & excluded, &key),
        _ => Bound::Unbounded,
    };
    Range {
        start: bound(raw.start, ffi::START_EXCLUDED, ffi::START_UNBOUNDED),
        end: bound(raw.end, ffi::END_EXCLUDED, ffi::END_UNBOUNDED),
    }
}

impl<K: Key> Range<K> {
    /// The range of the keys from the first to the last.
    pub(crate) fn through((first, last): (K, K)) -> Range<K> {
        Range { start: Bound::Included(first), end: Bound::Included(last) }
    }

    /// The same keys with the least and the greatest in the place of ends that are not there, as maps and sets show them.
    pub(crate) fn bounded(self) -> Range<K> {
        let or = |bound, key| if matches!(bound, Bound::Unbounded) { Bound::Included(key) } else { bound };
        Range { start: or(self.start, K::LEAST), end: or(self.end, K::GREATEST) }
    }

    /// The first and the last key, where there is one. A stored range has both.
    pub fn ends(&self) -> Option<(K, K)> {
        let first = match self.start {
            Bound::Included(key) => key,
            Bound::Excluded(key) => key.successor()?,
            Bound::Unbounded => K::LEAST,
        };
        let last = match self.end {
            Bound::Included(key) => key,
            Bound::Excluded(key) => key.predecessor()?,
            Bound::Unbounded => K::GREATEST,
        };
        (first <= last).then_some((first, last))
    }

    /// The first key, where there is one. A stored range has one.
    pub fn first(&self) -> Option<K> {
        self.ends().map(|(first, _)| first)
    }

    /// The last key, where there is one. A stored range has one.
    pub fn last(&self) -> Option<K> {
        self.ends().map(|(_, last)| last)
    }

    /// How many keys there are; of all keys of 128 bits, which are one more than it can say, `u128::MAX`.
    pub fn len(&self) -> u128 {
        self.ends().map_or(0, |(first, last)| {
            let (first, last): (u128, u128) = (first.place().into(), last.place().into());
            (last - first).saturating_add(1)
        })
    }

    /// Whether there is no key. A stored range is never empty.
    pub fn is_empty(&self) -> bool {
        self.ends().is_none()
    }

    /// The same keys from the first to the last, however the bounds are stored: to go over the keys, or to compare ranges.
    /// An empty range becomes one that std takes as empty.
    ///
    /// ```
    /// # use btree_range_map_proved::RangeMap;
    /// let mut rooms: RangeMap<u8, &str> = [(9..17, "open")].into();
    /// rooms.insert(12..=12, "lunch");
    /// let shown: Vec<_> = rooms.iter().map(|(hours, state)| (hours.to_inclusive(), *state)).collect();
    /// assert_eq!(shown, [(9..=11, "open"), (12..=12, "lunch"), (13..=16, "open")]);
    /// ```
    pub fn to_inclusive(&self) -> ops::RangeInclusive<K> {
        let (first, last) = self.ends().unwrap_or((K::GREATEST, K::LEAST));
        first..=last
    }
}
