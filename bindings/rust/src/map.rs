//! Maps from ranges of keys to values of any type.
use crate::numbers::{self, NumberMap};
use crate::range::{Key, Range};
use crate::set::RangeSet;
use crate::values::Values;
use std::fmt;
use std::hash::{Hash, Hasher};
use std::iter::FusedIterator;
use std::ops::{Index, RangeBounds};

/// A map of keys to values, kept as ranges: ranges that touch and have equal values are one.
///
/// The proved part is the map of keys to the numbers of the values. The values themselves lie in a table, which is Rust: a
/// value is compared with those of the ranges beside it alone, so it need be no more than `Eq`, and it is dropped as soon
/// as no range has it. Where memory runs out, a call panics, [`RangeMap::try_insert`] among them, or aborts as std does;
/// [`NumberMap`] has the calls that answer by an error.
///
/// ```
/// use btree_range_map_proved::RangeMap;
///
/// let mut shifts = RangeMap::new();
/// shifts.insert(0..24, "closed");
/// shifts.insert(9..17, "open");
/// assert_eq!(shifts.get(12), Some(&"open"));
/// assert_eq!(format!("{shifts:?}"), r#"{0..9: "closed", 9..17: "open", 17..24: "closed"}"#);
/// # let _: RangeMap<u8, &str> = shifts;
/// ```
///
/// Floats are not `Eq`. As values they are in a type of one's own that says which are equal:
///
/// ```
/// use btree_range_map_proved::RangeMap;
///
/// /// A price, of which two are equal where their bits are.
/// #[derive(Clone, Copy, Debug)]
/// struct Price(f64);
///
/// impl PartialEq for Price {
///     fn eq(&self, other: &Price) -> bool {
///         self.0.to_bits() == other.0.to_bits()
///     }
/// }
///
/// impl Eq for Price {}
///
/// let mut tariff: RangeMap<u8, Price> = [(0..24, Price(0.3))].into();
/// tariff.insert(1..5, Price(0.2));
/// tariff.insert(5..6, Price(0.2));
/// assert_eq!((tariff.len(), tariff.get(5)), (3, Some(&Price(0.2))));
/// ```
pub struct RangeMap<K: Key, V> {
    numbers: NumberMap<K>,
    values: Values<V>,
}

const NO_MEMORY: &str = "out of memory";

/// A stored range as a change meets it: its bounds, its first and its last key, and the number of its value.
struct Met<K> {
    range: Range<K>,
    first: K,
    last: K,
    number: u64,
}

impl<K: Key, V> RangeMap<K, V> {
    /// A map that binds no key.
    pub fn new() -> RangeMap<K, V> {
        RangeMap { numbers: NumberMap::new().expect(NO_MEMORY), values: Values::new() }
    }

    /// The stored ranges that hold a key from the first to the last, in ascending order.
    fn met(&self, first: K, last: K) -> Vec<Met<K>> {
        let with_ends = |(range, number): (Range<K>, u64)| {
            let (first, last) = range.ends()?;
            Some(Met { range, first, last, number })
        };
        let mut met = Vec::new();
        // nearly all changes meet few ranges, which one search finds
        let few = self.numbers.few_from(first);
        met.extend(few.iter().copied().map_while(|it| with_ends(it?)).take_while(|it| it.first <= last));
        if met.len() == few.len() {
            let past = met.last().and_then(|it| it.last.successor());
            let rest = past.filter(|it| *it <= last).map(|it| self.numbers.overlapping(it..=last));
            met.extend(rest.into_iter().flatten().filter_map(with_ends));
        }
        met
    }

    /// Lets go of what the ranges had that a change met, from the first to the last key. What is left of one on either side
    /// goes on having its value, unless the keys have its number now and are one range with it.
    fn let_go(&mut self, met: &[Met<K>], (first, last): (K, K), number: Option<u64>) {
        let before = met.first().filter(|it| it.first < first && Some(it.number) != number);
        let after = met.last().filter(|it| it.last > last && Some(it.number) != number);
        before.into_iter().chain(after).for_each(|it| self.values.hold(it.number));
        met.iter().for_each(|it| drop(self.values.release(it.number)));
    }

    /// Binds no key of the range.
    pub fn remove(&mut self, range: impl RangeBounds<K>) {
        let range = Range::of(&range);
        let Some((first, last)) = range.ends() else { return };
        let met = self.met(first, last);
        if !met.is_empty() {
            self.numbers.remove(range).expect(NO_MEMORY);
            self.let_go(&met, (first, last), None);
        }
    }

    /// Gives back memory that is not needed. Copies the tree.
    pub fn shrink_to_fit(&mut self) {
        self.numbers = self.numbers.try_clone().expect(NO_MEMORY);
        self.values.shrink_to_fit();
    }

    /// Takes all ranges and values away.
    pub fn clear(&mut self) {
        self.numbers.clear();
        self.values = Values::new();
    }

    /// The value that the key is bound to.
    pub fn get(&self, key: K) -> Option<&V> {
        self.numbers.get(key).map(|number| self.values.get(number))
    }

    /// The values that the keys are bound to, in their order, looked up many in one call of the library.
    pub fn get_many<'a>(
        &'a self,
        keys: impl IntoIterator<Item = K> + 'a,
    ) -> impl Iterator<Item = Option<&'a V>> + 'a {
        self.numbers.get_many(keys).map(|number| Some(self.values.get(number?)))
    }

    /// The stored range that holds the key, with its value.
    pub fn get_key_value(&self, key: K) -> Option<(Range<K>, &V)> {
        self.shown(self.numbers.get_key_value(key))
    }

    /// The former name of [`RangeMap::get_key_value`].
    #[deprecated(since = "0.3.3", note = "use `get_key_value`, as std and rangemap name it")]
    pub fn get_range_value(&self, key: K) -> Option<(Range<K>, &V)> {
        self.get_key_value(key)
    }

    /// Whether the key is bound.
    pub fn contains_key(&self, key: K) -> bool {
        self.numbers.contains_key(key)
    }

    /// Whether some key of the range is bound.
    #[doc(alias = "overlaps")]
    pub fn intersects(&self, range: impl RangeBounds<K>) -> bool {
        self.numbers.intersects(range)
    }

    /// How many ranges are stored. The number of keys is [`RangeMap::key_count`].
    pub fn len(&self) -> usize {
        self.numbers.len()
    }

    /// Whether no key is bound.
    pub fn is_empty(&self) -> bool {
        self.len() == 0
    }

    /// How many keys are bound; of all keys of 128 bits, which are one more than it can say, `u128::MAX`. Goes over all
    /// stored ranges.
    pub fn key_count(&self) -> u128 {
        self.numbers.key_count()
    }

    /// The first stored range, with its value.
    pub fn first_range_value(&self) -> Option<(Range<K>, &V)> {
        self.shown(self.numbers.first_range_value())
    }

    /// The last stored range, with its value.
    pub fn last_range_value(&self) -> Option<(Range<K>, &V)> {
        self.shown(self.numbers.last_range_value())
    }

    /// The first stored range that ends at the key or after it, with its value.
    ///
    /// ```
    /// # use btree_range_map_proved::RangeMap;
    /// let map: RangeMap<u8, &str> = [(0..5, "low"), (7..9, "high")].into();
    /// assert_eq!(map.next(5), Some(((7..9).into(), &"high")));
    /// assert_eq!(map.previous(5), Some(((0..5).into(), &"low")));
    /// ```
    pub fn next(&self, key: K) -> Option<(Range<K>, &V)> {
        self.shown(self.numbers.next(key))
    }

    /// The last stored range that starts at the key or before it, with its value.
    pub fn previous(&self, key: K) -> Option<(Range<K>, &V)> {
        self.shown(self.numbers.previous(key))
    }

    /// Takes the first stored range out. Its value is cloned where another part of a range that was cut has it too.
    pub fn pop_first(&mut self) -> Option<(Range<K>, V)>
    where
        V: Clone,
    {
        self.numbers.pop_first().map(|(range, number)| (range, self.values.taken(number)))
    }

    /// Takes the last stored range out. Its value is cloned where another part of a range that was cut has it too.
    pub fn pop_last(&mut self) -> Option<(Range<K>, V)>
    where
        V: Clone,
    {
        self.numbers.pop_last().map(|(range, number)| (range, self.values.taken(number)))
    }

    /// The stored ranges with their values, in ascending order, from both ends.
    pub fn iter(&self) -> Iter<'_, K, V> {
        Iter { numbers: self.numbers.iter(), values: &self.values }
    }

    /// The stored ranges that hold a key of the range, whole, with their values, in ascending order.
    ///
    /// ```
    /// # use btree_range_map_proved::RangeMap;
    /// let map: RangeMap<u8, &str> = [(0..5, "low"), (7..9, "high")].into();
    /// assert_eq!(map.overlapping(4..7).collect::<Vec<_>>(), [((0..5).into(), &"low")]);
    /// ```
    pub fn overlapping<'a>(
        &'a self,
        range: impl RangeBounds<K> + 'a,
    ) -> impl Iterator<Item = (Range<K>, &'a V)> + 'a {
        self.numbers.overlapping(range).map(|(found, number)| (found, self.values.get(number)))
    }

    /// The parts of the range in ascending order: each part that a stored range binds, with its value, and each free part
    /// between, as wide as it goes, with none.
    ///
    /// ```
    /// # use btree_range_map_proved::RangeMap;
    /// let map: RangeMap<u8, &str> = [(0..5, "low")].into();
    /// assert_eq!(map.pieces(3..8).collect::<Vec<_>>(), [((3..=4).into(), Some(&"low")), ((5..=7).into(), None)]);
    /// ```
    pub fn pieces<'a>(
        &'a self,
        range: impl RangeBounds<K> + 'a,
    ) -> impl Iterator<Item = (Range<K>, Option<&'a V>)> + 'a {
        self.numbers.pieces(range).filter_map(|(piece, number)| {
            Some((Range::through(piece.ends()?), number.map(|it| self.values.get(it))))
        })
    }

    /// The parts of the range of which no key is bound, in ascending order.
    ///
    /// ```
    /// # use btree_range_map_proved::RangeMap;
    /// let map: RangeMap<u8, &str> = [(0..5, "low"), (7..9, "high")].into();
    /// assert_eq!(map.gaps(3..12).collect::<Vec<_>>(), [(5..=6).into(), (9..=11).into()]);
    /// ```
    pub fn gaps<'a>(&'a self, range: impl RangeBounds<K> + 'a) -> impl Iterator<Item = Range<K>> + 'a {
        self.numbers.gaps(range).filter_map(|gap| gap.ends()).map(Range::through)
    }

    /// The map of keys to the numbers of the values, which the library keeps.
    pub fn as_numbers(&self) -> &NumberMap<K> {
        &self.numbers
    }

    /// How many values are kept: each for one stored range, or for the parts of one that was cut.
    pub fn value_count(&self) -> usize {
        self.values.count()
    }

    fn shown(&self, found: Option<(Range<K>, u64)>) -> Option<(Range<K>, &V)> {
        found.map(|(range, number)| (range, self.values.get(number)))
    }
}

impl<K: Key, V: Eq> RangeMap<K, V> {
    /// Binds each key of the range to the value. An empty range changes nothing.
    pub fn insert(&mut self, range: impl RangeBounds<K>, value: V) {
        let range = Range::of(&range);
        if let Some(ends) = range.ends() {
            self.bind(range, ends, value);
        }
    }

    /// Binds the keys of a range, which is not empty, from the first to the last.
    fn bind(&mut self, mut range: Range<K>, (first, mut last): (K, K), value: V) {
        let met = self.met(first.predecessor().unwrap_or(first), last.successor().unwrap_or(last));
        let is_same = |it: &&Met<K>| *self.values.get(it.number) == value;
        let before = met.first().filter(|it| it.first < first).filter(is_same);
        let after = met.last().filter(|it| it.last > last).filter(is_same);
        if let (Some(_), Some(after)) = (before, after) {
            // two ranges of equal values become one
            (range.end, last) = (after.range.end, after.last);
        }
        let number = match before.or(after) {
            Some(same) => {
                self.values.hold(same.number);
                same.number
            }
            None => self.values.add(value),
        };
        self.numbers.insert(range, number).expect(NO_MEMORY);
        self.let_go(&met, (first, last), Some(number));
    }

    /// Binds each key of the range to the value, where none of them is bound; else gives the value back.
    pub fn try_insert(&mut self, range: impl RangeBounds<K>, value: V) -> Result<(), V> {
        let range = Range::of(&range);
        if self.intersects(range) {
            return Err(value);
        }
        self.insert(range, value);
        Ok(())
    }

    /// Binds each key of a range that neither meets nor touches a stored one; else gives the value back.
    ///
    /// ```
    /// # use btree_range_map_proved::RangeMap;
    /// let mut map: RangeMap<u8, &str> = [(0..5, "low")].into();
    /// assert_eq!(map.insert_disconnected(5..7, "high"), Err("high"));
    /// assert_eq!(map.insert_disconnected(6..7, "high"), Ok(()));
    /// ```
    pub fn insert_disconnected(&mut self, range: impl RangeBounds<K>, value: V) -> Result<(), V> {
        let range = Range::of(&range);
        let Some((first, last)) = range.ends() else { return Ok(()) };
        let with_neighbours = first.predecessor().unwrap_or(first)..=last.successor().unwrap_or(last);
        if self.intersects(with_neighbours) {
            return Err(value);
        }
        self.insert(range, value);
        Ok(())
    }

    /// Binds the keys of each part of the range as `change` says of its value, of `None` where it is free: to a value, or,
    /// where that is `None`, not at all. This changes values in place too, and ranges that have equal ones then are joined,
    /// which a mutable iterator could not do. Where `change` panics, nothing has changed.
    ///
    /// ```
    /// # use btree_range_map_proved::RangeMap;
    /// // how often each byte of a file was asked for
    /// let mut asked: RangeMap<u64, u32> = RangeMap::new();
    /// for range in [0..100, 50..200, 50..100] {
    ///     asked.update(range, |count| Some(count.unwrap_or(&0) + 1));
    /// }
    /// assert_eq!(asked, [(0..50, 1), (50..100, 3), (100..200, 1)].into());
    /// asked.update(.., |count| count.filter(|it| **it > 1).copied());
    /// assert_eq!(asked, [(50..100, 3)].into());
    /// ```
    #[doc(alias("get_mut", "iter_mut"))]
    pub fn update(&mut self, range: impl RangeBounds<K>, mut change: impl FnMut(Option<&V>) -> Option<V>) {
        let changed: Vec<_> = self.pieces(range).map(|(piece, value)| (piece, change(value))).collect();
        for (piece, value) in changed {
            match value {
                Some(value) => self.insert(piece, value),
                None => self.remove(piece),
            }
        }
    }

    /// A map that binds each key as `merge` says of what this map and the other bind it to; `None` binds it not at all.
    /// Where neither binds a key, `merge` is not asked.
    ///
    /// ```
    /// # use btree_range_map_proved::RangeMap;
    /// let here: RangeMap<u8, u32> = [(0..5, 1), (7..9, 1)].into();
    /// let there: RangeMap<u8, u32> = [(3..8, 2)].into();
    /// let sum = here.merge_with(&there, |one, two| Some(one.unwrap_or(&0) + two.unwrap_or(&0)));
    /// assert_eq!(sum, [(0..3, 1), (3..5, 3), (5..7, 2), (7..8, 3), (8..9, 1)].into());
    /// ```
    #[doc(alias = "combine")]
    pub fn merge_with<U, W: Eq>(
        &self,
        other: &RangeMap<K, U>,
        mut merge: impl FnMut(Option<&V>, Option<&U>) -> Option<W>,
    ) -> RangeMap<K, W> {
        let mut made = RangeMap::new();
        let pieces = Both { left: Side::new(self.iter()), right: Side::new(other.iter()) };
        made.extend(pieces.filter_map(|(keys, left, right)| Some((keys, merge(left, right)?))));
        made
    }

    /// Keeps of the map what lies before the key, and returns the rest.
    ///
    /// ```
    /// # use btree_range_map_proved::RangeMap;
    /// let mut map: RangeMap<u8, &str> = [(0..5, "low"), (7..9, "high")].into();
    /// let rest = map.split_off(3);
    /// assert_eq!((map, rest), ([(0..3, "low")].into(), [(3..5, "low"), (7..9, "high")].into()));
    /// ```
    pub fn split_off(&mut self, key: K) -> RangeMap<K, V>
    where
        V: Clone,
    {
        // a range that holds the key goes on in both
        let met = self.met(key, key);
        let cut = met.iter().find(|it| it.first < key);
        let numbers = self.numbers.split_off(key).expect(NO_MEMORY);
        cut.into_iter().for_each(|it| self.values.hold(it.number));
        numbers.iter().map(|(range, number)| (range, self.values.taken(number))).collect()
    }

    /// Moves all bindings of the other map into this one, where they replace those of the same keys.
    pub fn append(&mut self, other: &mut RangeMap<K, V>)
    where
        V: Clone,
    {
        self.extend(std::mem::take(other));
    }

    /// A map that binds each key as the other does, or else as this one does.
    pub fn overlay(&self, other: &RangeMap<K, V>) -> RangeMap<K, V>
    where
        V: Clone,
    {
        let mut made = self.clone();
        made.extend(other.iter().map(|(range, value)| (range, value.clone())));
        made
    }

    /// A map of the bindings of keys that the set has.
    ///
    /// ```
    /// # use btree_range_map_proved::{RangeMap, RangeSet};
    /// let map: RangeMap<u8, &str> = [(0..5, "low"), (7..9, "high")].into();
    /// let keys: RangeSet<u8> = [4..8].into();
    /// assert_eq!(map.restrict(&keys), [(4..5, "low"), (7..8, "high")].into());
    /// assert_eq!(map.without(&keys), [(0..4, "low"), (8..9, "high")].into());
    /// ```
    pub fn restrict(&self, keys: &RangeSet<K>) -> RangeMap<K, V>
    where
        V: Clone,
    {
        keys.iter()
            .flat_map(|range| {
                self.pieces(range)
                    .filter_map(|(piece, value)| Some((piece, value?.clone())))
                    .collect::<Vec<_>>()
            })
            .collect()
    }

    /// A map of the bindings of keys that the set has not.
    pub fn without(&self, keys: &RangeSet<K>) -> RangeMap<K, V>
    where
        V: Clone,
    {
        let mut made = self.clone();
        keys.iter().for_each(|range| made.remove(range));
        made
    }
}

impl<K: Key, V> Default for RangeMap<K, V> {
    fn default() -> RangeMap<K, V> {
        RangeMap::new()
    }
}

impl<K: Key, V: Clone> Clone for RangeMap<K, V> {
    fn clone(&self) -> RangeMap<K, V> {
        RangeMap { numbers: self.numbers.try_clone().expect(NO_MEMORY), values: self.values.clone() }
    }
}

/// Two maps are equal where they bind each key alike.
impl<K: Key, V: PartialEq> PartialEq for RangeMap<K, V> {
    fn eq(&self, other: &RangeMap<K, V>) -> bool {
        self.len() == other.len()
            && self.iter().zip(other.iter()).all(|((range, value), (second, other_value))| {
                range.ends() == second.ends() && value == other_value
            })
    }
}

impl<K: Key, V: Eq> Eq for RangeMap<K, V> {}

impl<K: Key + Hash, V: Hash> Hash for RangeMap<K, V> {
    fn hash<H: Hasher>(&self, state: &mut H) {
        self.len().hash(state);
        self.iter().for_each(|(range, value)| (range.ends(), value).hash(state));
    }
}

impl<K: Key, V: fmt::Debug> fmt::Debug for RangeMap<K, V> {
    fn fmt(&self, f: &mut fmt::Formatter<'_>) -> fmt::Result {
        f.debug_map().entries(self.iter().map(|(range, value)| (range.bounded(), value))).finish()
    }
}

/// Panics where the key is not bound.
impl<K: Key, V> Index<K> for RangeMap<K, V> {
    type Output = V;

    fn index(&self, key: K) -> &V {
        self.get(key).expect("the key is not bound")
    }
}

/// Binds each range to its value, one after the other. An empty map stores those that come in order with no search.
impl<K: Key, V: Eq, R: RangeBounds<K>> Extend<(R, V)> for RangeMap<K, V> {
    fn extend<I: IntoIterator<Item = (R, V)>>(&mut self, ranges: I) {
        let mut ranges = ranges.into_iter().map(|(range, value)| (Range::of(&range), value));
        if self.is_empty() {
            let next = self.insert_in_order(&mut ranges);
            next.into_iter().for_each(|(range, value)| self.insert(range, value));
        }
        ranges.for_each(|(range, value)| self.insert(range, value));
    }
}

impl<K: Key, V: Eq> RangeMap<K, V> {
    /// Puts into an empty map the ranges up to the first one that does not lie after all before it, which it returns.
    fn insert_in_order(&mut self, ranges: &mut impl Iterator<Item = (Range<K>, V)>) -> Option<(Range<K>, V)> {
        let mut in_order: Vec<(Range<K>, u64)> = Vec::new();
        let mut past: Option<(K, u64)> = None;
        let other = ranges.find_map(|(range, value)| {
            let Some((first, last)) = range.ends() else { return None };
            let number = match past {
                Some((end, _)) if first <= end => return Some((range, value)),
                Some((end, number))
                    if end.successor() == Some(first) && *self.values.get(number) == value =>
                {
                    number
                }
                _ => self.values.add(value),
            };
            in_order.push((range, number));
            past = Some((last, number));
            None
        });
        self.numbers.insert_many(in_order).expect(NO_MEMORY);
        other
    }
}

impl<K: Key, V: Eq, R: RangeBounds<K>> FromIterator<(R, V)> for RangeMap<K, V> {
    fn from_iter<I: IntoIterator<Item = (R, V)>>(ranges: I) -> RangeMap<K, V> {
        let mut map = RangeMap::new();
        map.extend(ranges);
        map
    }
}

impl<K: Key, V: Eq, R: RangeBounds<K>, const N: usize> From<[(R, V); N]> for RangeMap<K, V> {
    fn from(ranges: [(R, V); N]) -> RangeMap<K, V> {
        ranges.into_iter().collect()
    }
}

/// The stored ranges of a [`RangeMap`] with their values, in ascending order, from both ends.
pub struct Iter<'a, K: Key, V> {
    numbers: numbers::Iter<'a, K>,
    values: &'a Values<V>,
}

impl<K: Key, V> Clone for Iter<'_, K, V> {
    fn clone(&self) -> Self {
        Iter { numbers: self.numbers.clone(), values: self.values }
    }
}

impl<'a, K: Key, V> Iterator for Iter<'a, K, V> {
    type Item = (Range<K>, &'a V);

    #[inline]
    fn next(&mut self) -> Option<(Range<K>, &'a V)> {
        self.numbers.next().map(|(range, number)| (range, self.values.get(number)))
    }

    #[inline]
    fn fold<T, F: FnMut(T, Self::Item) -> T>(self, made: T, mut call: F) -> T {
        self.numbers.fold(made, |made, (range, number)| call(made, (range, self.values.get(number))))
    }

    fn size_hint(&self) -> (usize, Option<usize>) {
        self.numbers.size_hint()
    }
}

impl<K: Key, V> DoubleEndedIterator for Iter<'_, K, V> {
    #[inline]
    fn next_back(&mut self) -> Option<Self::Item> {
        self.numbers.next_back().map(|(range, number)| (range, self.values.get(number)))
    }
}

impl<K: Key, V> ExactSizeIterator for Iter<'_, K, V> {}

impl<K: Key, V> FusedIterator for Iter<'_, K, V> {}

impl<'a, K: Key, V> IntoIterator for &'a RangeMap<K, V> {
    type Item = (Range<K>, &'a V);
    type IntoIter = Iter<'a, K, V>;

    fn into_iter(self) -> Iter<'a, K, V> {
        self.iter()
    }
}

/// The stored ranges of a [`RangeMap`] that is taken apart, with their values, in ascending order, from both ends.
pub struct IntoIter<K, V> {
    numbers: std::vec::IntoIter<(Range<K>, u64)>,
    values: Values<V>,
}

impl<K: Key, V: Clone> Iterator for IntoIter<K, V> {
    type Item = (Range<K>, V);

    fn next(&mut self) -> Option<(Range<K>, V)> {
        self.numbers.next().map(|(range, number)| (range, self.values.taken(number)))
    }

    fn size_hint(&self) -> (usize, Option<usize>) {
        self.numbers.size_hint()
    }
}

impl<K: Key, V: Clone> DoubleEndedIterator for IntoIter<K, V> {
    fn next_back(&mut self) -> Option<(Range<K>, V)> {
        self.numbers.next_back().map(|(range, number)| (range, self.values.taken(number)))
    }
}

impl<K: Key, V: Clone> ExactSizeIterator for IntoIter<K, V> {}

impl<K: Key, V: Clone> FusedIterator for IntoIter<K, V> {}

/// Values are moved out; only parts of a range that was cut share one, which is cloned.
impl<K: Key, V: Clone> IntoIterator for RangeMap<K, V> {
    type Item = (Range<K>, V);
    type IntoIter = IntoIter<K, V>;

    fn into_iter(self) -> IntoIter<K, V> {
        IntoIter { numbers: self.numbers.iter().collect::<Vec<_>>().into_iter(), values: self.values }
    }
}

/// What is left of one map while two are gone over together.
struct Side<I, K, V> {
    rest: I,
    next: Option<(K, K, V)>,
}

impl<K: Key, V: Copy, I: Iterator<Item = (Range<K>, V)>> Side<I, K, V> {
    fn new(mut rest: I) -> Self {
        let next = Side::told(&mut rest);
        Side { rest, next }
    }

    fn told(rest: &mut I) -> Option<(K, K, V)> {
        rest.find_map(|(range, value)| range.ends().map(|(first, last)| (first, last, value)))
    }

    /// The value of the keys up to the last, where the side binds them; what lies before the key after it is done.
    fn taken(&mut self, first: K, last: K) -> Option<V> {
        let (start, end, value) = self.next.filter(|(start, ..)| *start == first)?;
        self.next = match last.successor().filter(|next| *next <= end) {
            Some(next) => Some((next, end, value)),
            None => Side::told(&mut self.rest),
        };
        debug_assert!(start <= last);
        Some(value)
    }
}

/// The parts of all keys that one of two maps binds, as wide as they go, with what each map binds them to.
struct Both<I, J, K, V, U> {
    left: Side<I, K, V>,
    right: Side<J, K, U>,
}

impl<K: Key, V: Copy, U: Copy, I, J> Iterator for Both<I, J, K, V, U>
where
    I: Iterator<Item = (Range<K>, V)>,
    J: Iterator<Item = (Range<K>, U)>,
{
    type Item = (Range<K>, Option<V>, Option<U>);

    fn next(&mut self) -> Option<Self::Item> {
        let one = self.left.next.map(|(first, last, _)| (first, last));
        let two = self.right.next.map(|(first, last, _)| (first, last));
        let first = one.into_iter().chain(two).map(|(first, _)| first).min()?;
        // up to the end of what begins here, and to the key before what begins later
        let ends = one.into_iter().chain(two);
        let last = ends
            .filter_map(|(start, end)| if start == first { Some(end) } else { start.predecessor() })
            .min()?;
        let (left, right) = (self.left.taken(first, last), self.right.taken(first, last));
        Some((Range::through((first, last)), left, right))
    }
}
