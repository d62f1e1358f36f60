//! The same random calls on the proved map and on a reference over std's `BTreeMap`.
use btree_range_map_proved::{NotInserted, NotLoaded, NumberMap, Range, RangeMap, RangeSet};
use std::collections::{BTreeMap, VecDeque};
use std::ops::Bound;

/// Ranges of keys below `u64::MAX`, by their first key, with their last and their value. Joined where they touch.
#[derive(Default)]
struct Reference(BTreeMap<u64, (u64, u64)>);

impl Reference {
    fn remove(&mut self, first: u64, last: u64) {
        let meeting: Vec<(u64, u64, u64)> = self
            .0
            .range(..=last)
            .rev()
            .take_while(|(_, (end, _))| *end >= first)
            .map(|(start, (end, value))| (*start, *end, *value))
            .collect();
        for (start, end, value) in meeting {
            self.0.remove(&start);
            if start < first {
                self.0.insert(start, (first - 1, value));
            }
            if last < end {
                self.0.insert(last + 1, (end, value));
            }
        }
    }

    fn insert(&mut self, first: u64, last: u64, value: u64) {
        self.remove(first, last);
        let (mut first, mut last) = (first, last);
        if let Some((start, (end, other))) = self.0.range(..first).next_back().map(|(s, e)| (*s, *e)) {
            if end + 1 == first && other == value {
                self.0.remove(&start);
                first = start;
            }
        }
        if let Some((end, other)) = self.0.get(&(last + 1)).copied() {
            if other == value {
                self.0.remove(&(last + 1));
                last = end;
            }
        }
        self.0.insert(first, (last, value));
    }

    fn meets(&self, first: u64, last: u64) -> bool {
        self.0.range(..=last).next_back().is_some_and(|(_, (end, _))| *end >= first)
    }

    fn meets_or_touches(&self, first: u64, last: u64) -> bool {
        let last = last + 1;
        self.0.range(..=last).next_back().is_some_and(|(_, (end, _))| end + 1 >= first)
    }

    fn previous(&self, key: u64) -> Option<(u64, u64, u64)> {
        self.0.range(..=key).next_back().map(|(start, (end, value))| (*start, *end, *value))
    }

    fn next(&self, key: u64) -> Option<(u64, u64, u64)> {
        self.get(key)
            .or_else(|| self.0.range(key..).next().map(|(start, (end, value))| (*start, *end, *value)))
    }

    fn get(&self, key: u64) -> Option<(u64, u64, u64)> {
        let (start, (end, value)) = self.0.range(..=key).next_back()?;
        (*end >= key).then_some((*start, *end, *value))
    }
}

/// A generator of random numbers, good enough for tests (xorshift).
struct Random(u64);

impl Random {
    fn below(&mut self, bound: u64) -> u64 {
        self.0 ^= self.0 << 13;
        self.0 ^= self.0 >> 7;
        self.0 ^= self.0 << 17;
        self.0 % bound
    }
}

fn first_and_last(range: Range<u64>) -> (u64, u64) {
    range.ends().unwrap()
}

fn told((range, number): (Range<u64>, u64)) -> (u64, u64, u64) {
    let (first, last) = range.ends().unwrap();
    (first, last, number)
}

#[test]
fn random_changes_answer_as_the_reference() {
    for (seed, keys) in [(1, 60), (2, 1_000), (3, 100_000)] {
        let mut random = Random(seed);
        let mut map: NumberMap<u64> = NumberMap::new().unwrap();
        let mut reference = Reference::default();
        for _ in 0..20_000 {
            let first = random.below(keys);
            let last = first + random.below(keys / 12);
            let value = random.below(3);
            match random.below(10) {
                0..3 => {
                    map.insert(first..=last, value).unwrap();
                    reference.insert(first, last, value);
                }
                3 => {
                    let refused = reference.meets_or_touches(first, last);
                    let got = map.insert_disconnected(first..last + 1, value);
                    assert_eq!(got, if refused { Err(NotInserted::Connected) } else { Ok(()) });
                    if !refused {
                        reference.insert(first, last, value);
                    }
                }
                4 => {
                    map.remove((Bound::Included(first), Bound::Included(last))).unwrap();
                    reference.remove(first, last);
                }
                5 => assert_eq!(map.get_key_value(first).map(told), reference.get(first)),
                6 => assert_eq!(map.contains_key(last), reference.get(last).is_some()),
                7 => assert_eq!(map.previous(first).map(told), reference.previous(first)),
                8 => assert_eq!(map.next(first).map(told), reference.next(first)),
                _ => assert_eq!(map.intersects(first..=last), reference.meets(first, last)),
            }
            assert_eq!(map.len(), reference.0.len());
        }
        let keys = reference.0.iter().map(|(first, (last, _))| u128::from(last - first) + 1).sum::<u128>();
        assert_eq!(map.key_count(), keys);
        let of_reference: Vec<_> =
            reference.0.iter().map(|(first, (last, value))| (*first, *last, *value)).collect();
        assert_eq!(map.first_range_value().map(told), of_reference.first().copied());
        assert_eq!(map.last_range_value().map(told), of_reference.last().copied());
        let mut read: NumberMap<u64> = NumberMap::new().unwrap();
        read.load_json(&map.to_json().unwrap()).unwrap();
        assert_eq!(read.iter().map(told).collect::<Vec<_>>(), of_reference);
        let shown: Vec<_> = map.iter().map(told).collect();
        assert_eq!(shown, of_reference);
        let backward: Vec<_> = map.iter().rev().map(told).collect();
        assert!(backward.iter().eq(of_reference.iter().rev()));
        assert_eq!(map.iter().len(), of_reference.len());
        let copy = map.try_clone().unwrap();
        assert!(copy == map && copy.len() == of_reference.len());
        let taken: Vec<_> = std::iter::from_fn(|| map.pop_first()).map(told).collect();
        assert_eq!(taken, of_reference);
        assert!(map.is_empty() && (copy == map) == of_reference.is_empty());
    }
}

#[test]
fn ranges_keep_their_bounds() {
    let mut map: NumberMap<i64> = NumberMap::new().unwrap();
    map.insert(.., 7).unwrap();
    assert_eq!(map.key_count(), 1 << 64);
    assert_eq!(map.get_key_value(-3), Some((Range::from(..), 7)));
    map.remove(-5..5).unwrap();
    assert_eq!((map.get(-6), map.get(-5), map.get(4), map.get(5)), (Some(7), None, None, Some(7)));
    assert_eq!(map.iter().rev().collect::<Vec<_>>(), [(Range::from(5..), 7), (Range::from(..-5), 7)]);
    assert_eq!(format!("{map:?}"), "{-9223372036854775808..-5: 7, 5..=9223372036854775807: 7}");
}

/// From both ends by turns, more often from one of them: each range is shown once, wherever batches end.
#[test]
fn an_iteration_meets_itself_on_the_way() {
    let mut random = Random(11);
    for (count, of_four) in
        [0, 1, 2, 5, 40, 513, 3000].into_iter().flat_map(|it| (0..=4).map(move |of| (it, of)))
    {
        let mut map: NumberMap<i64> = NumberMap::new().unwrap();
        map.insert_many((0..count).map(|at| (3 * at..=3 * at + 1, at as u64))).unwrap();
        let mut wanted: VecDeque<u64> = (0..count as u64).collect();
        let mut shown = map.iter();
        while !wanted.is_empty() {
            let (found, next) = if random.below(4) < of_four {
                (shown.next(), wanted.pop_front())
            } else {
                (shown.next_back(), wanted.pop_back())
            };
            assert_eq!(found.map(|(_, number)| number), next);
            assert_eq!(shown.len(), wanted.len());
            if random.below(100) == 0 {
                let mut rest = Vec::new();
                shown.clone().for_each(|(_, number)| rest.push(number));
                assert_eq!(wanted, rest);
            }
        }
        assert_eq!((shown.next(), shown.next_back(), shown.len()), (None, None, 0));
    }
}

/// What lies in a range comes in batches, of which the first has four ranges.
#[test]
fn ranges_within_a_range_come_whole() {
    let mut map: NumberMap<i64> = NumberMap::new().unwrap();
    map.insert_many((0..600).map(|at| (10 * at..10 * at + 6, at as u64))).unwrap();
    for (first, last) in [(0, 599), (3, 3), (5, 8), (2, 400), (590, 599)] {
        let met = map.overlapping(10 * first + 5..=10 * last + 5).map(|(_, number)| number);
        assert!(met.eq(first as u64..=last as u64));
        let gaps = map.gaps(10 * first..10 * last);
        assert!(gaps.eq((first..last).map(|at| Range::from(10 * at + 6..10 * at + 10))));
    }
    assert_eq!((map.overlapping(6..10).count(), map.overlapping(..).count()), (0, 600));
    let parts = (0..600).flat_map(|at| {
        let free = if at == 0 { Range::from(..0) } else { Range::from(10 * at - 4..10 * at) };
        [(free, None), (Range::from(10 * at..10 * at + 6), Some(at as u64))]
    });
    assert!(map.pieces(..).eq(parts.chain([(Range::from(5996..), None)])));
    let mut gaps = map.gaps(..);
    assert_eq!((gaps.next(), gaps.clone().count()), (Some(Range::from(..0)), 600));
    assert_eq!(gaps.last(), Some(Range::from(5996..)));
    assert_eq!(map.try_insert(4..7, 1), Err(NotInserted::Occupied));
    assert_eq!((map.try_insert(6..10, 0), map.len()), (Ok(()), 600));
    let mut rest = map.split_off(3003).unwrap();
    assert_eq!((map.len(), rest.len()), (301, 300));
    assert_eq!(map.last_range_value(), Some((Range::from(3000..3003), 300)));
    assert_eq!(rest.first_range_value(), Some((Range::from(3003..3006), 300)));
    assert_eq!(rest.append(&mut map), Err(NotInserted::OutOfOrder));
    assert_eq!((map.append(&mut rest), map.len(), rest.len()), (Ok(()), 600, 0));
    let mut other: NumberMap<i64> = NumberMap::new().unwrap();
    other.insert(-5..15, 9).unwrap();
    let overlay = map.overlay(&other).unwrap();
    assert_eq!((overlay.get(14), overlay.get(15), overlay.get(-6)), (Some(9), Some(1), None));
    assert_eq!(map.restrict(&other).unwrap().key_count(), 15);
    assert_eq!(map.without(&other).unwrap().first_range_value(), Some((Range::from(15..16), 1)));
    assert_eq!(map.overlay(&map).as_ref(), Ok(&map));
    assert_eq!((map.restrict(&map).as_ref(), map.without(&map).unwrap().is_empty()), (Ok(&map), true));
    let set: RangeSet<i64> = (0..50).map(|at| 10 * at..10 * at + 6).collect();
    assert_eq!((set.overlapping(5..=100).count(), set.overlapping(6..10).count()), (11, 0));
}

/// An empty map is given what an iterator is sure to give at once, and all else a batch at a time.
#[test]
fn ranges_given_at_once_are_bound_as_one_by_one() {
    for (count, width, swapped) in
        [(0, 6, 0), (1, 6, 0), (64, 6, 1), (66, 6, 0), (66, 25, 1), (2000, 6, 0), (2000, 25, 1)]
    {
        let ranges = || (0..count).map(|at| at ^ swapped).map(|at| (10 * at..10 * at + width, at % 3));
        let mut one_by_one: RangeMap<u64, u64> = RangeMap::new();
        ranges().for_each(|(range, value)| one_by_one.insert(range, value));
        let sure: RangeMap<u64, u64> = ranges().collect();
        let unsure: RangeMap<u64, u64> = ranges().filter(|_| true).collect();
        let mut twice = sure.clone();
        twice.extend(ranges());
        assert!(sure == one_by_one && unsure == one_by_one && twice == one_by_one);
        let mut numbers: NumberMap<u64> = NumberMap::new().unwrap();
        numbers.insert_many(ranges()).unwrap();
        assert!(numbers.iter().eq(one_by_one.iter().map(|(range, value)| (range, *value))));
    }
}

/// Values by each key of a `u16`, as a map of ranges with strings answers for them.
#[test]
fn values_of_any_type_answer_as_a_reference() {
    let mut random = Random(9);
    let mut map: RangeMap<u16, String> = RangeMap::new();
    let mut wanted: BTreeMap<u16, String> = BTreeMap::new();
    let calls: u64 = std::env::var("RANGE_MAP_CALLS").map_or(20_000, |it| it.parse().unwrap());
    for step in 0..calls {
        let first = random.below(200) as u16;
        let last = first + random.below(20) as u16;
        // many values that are used for a while alone
        let value = format!("{}", random.below(4) + step / 300);
        match random.below(7) {
            0..3 => {
                map.insert(first..=last, value.clone());
                wanted.extend((first..=last).map(|key| (key, value.clone())));
            }
            3 => {
                map.remove(first..=last);
                wanted.retain(|key, _| !(first..=last).contains(key));
            }
            4 => {
                let is_free = wanted.range(first..=last).next().is_none();
                assert_eq!(
                    map.try_insert(first..=last, value.clone()),
                    if is_free { Ok(()) } else { Err(value.clone()) }
                );
                if is_free {
                    wanted.extend((first..=last).map(|key| (key, value.clone())));
                }
            }
            5 => {
                let is_apart = wanted.range(first.saturating_sub(1)..=last + 1).next().is_none();
                assert_eq!(
                    map.insert_disconnected(first..last + 1, value.clone()),
                    if is_apart { Ok(()) } else { Err(value.clone()) }
                );
                if is_apart {
                    wanted.extend((first..=last).map(|key| (key, value.clone())));
                }
            }
            _ => {
                let pieces = map.pieces(first..=last).flat_map(|(range, value)| {
                    let (first, last) = range.ends().unwrap();
                    (first..=last).map(move |key| (key, value))
                });
                assert!(pieces.eq((first..=last).map(|key| (key, wanted.get(&key)))));
                assert!(map.get_many(first..=last).eq((first..=last).map(|key| wanted.get(&key))));
                let gaps = map.gaps(first..=last).flat_map(|range| {
                    let (first, last) = range.ends().unwrap();
                    first..=last
                });
                assert!(gaps.eq((first..=last).filter(|key| !wanted.contains_key(key))));
            }
        }
        assert_eq!(map.get(first), wanted.get(&first));
        assert_eq!(map.contains_key(last), wanted.contains_key(&last));
        for (found, nearest) in [
            (map.next(first), wanted.range(first..).next()),
            (map.previous(first), wanted.range(..=first).next_back()),
        ] {
            // the stored range of the nearest bound key, which it begins or ends with unless it holds this one
            assert_eq!(found.map(|(_, value)| value), nearest.map(|(_, value)| value));
            let is_of_it = |(start, end): (u16, u16), key: u16| {
                (start..=end).contains(&key) && ((start..=end).contains(&first) || start == key || end == key)
            };
            assert!(
                found.zip(nearest).is_none_or(|((range, _), (key, _))| is_of_it(range.ends().unwrap(), *key))
            );
        }
    }
    assert_eq!(map.key_count(), wanted.len() as u128);
    let ranges = map.iter().map(|(range, _)| range).collect::<Vec<_>>();
    assert!(ranges.iter().rev().copied().eq(map.iter().rev().map(|(range, _)| range)));
    let joins =
        wanted.iter().filter(|(key, value)| key.checked_sub(1).and_then(|it| wanted.get(&it)) == Some(value));
    assert_eq!(map.len(), wanted.len() - joins.count());
}

#[test]
fn ranges_that_touch_no_stored_one_are_told_apart() {
    let mut map: RangeMap<char, u8> = [('a'..='\u{d7ff}', 1)].into();
    assert_eq!(map.insert_disconnected('\u{e000}'..'\u{e002}', 2), Err(2));
    assert_eq!(map.insert_disconnected('\u{e001}'..'\u{e003}', 2), Ok(()));
    assert_eq!(map.insert_disconnected('b'..'b', 3), Ok(()));
    assert_eq!(map.insert_disconnected(..'`', 3), Ok(()));
    assert_eq!(map.iter().map(|(_, value)| *value).collect::<Vec<_>>(), [3, 1, 2]);
    let mut ends: RangeMap<i64, &str> = RangeMap::new();
    assert_eq!(ends.insert_disconnected(i64::MAX.., "last"), Ok(()));
    assert_eq!(ends.insert_disconnected(..=i64::MIN, "first"), Ok(()));
    assert_eq!(ends.insert_disconnected(.., "all"), Err("all"));
    assert_eq!((ends.next(0), ends.previous(0)), (ends.last_range_value(), ends.first_range_value()));
    assert_eq!((ends.get(i64::MIN), ends.get(i64::MAX), ends.len()), (Some(&"first"), Some(&"last"), 2));
}

/// The names that calls had before still stand.
#[test]
#[allow(deprecated)]
fn former_names_answer_alike() {
    let map: RangeMap<u8, u8> = [(0..5, 1)].into();
    let numbers = map.as_numbers();
    assert_eq!((numbers.range_count(), map.get_range_value(3)), (numbers.len(), map.get_key_value(3)));
    assert_eq!(numbers.get_range_value(3), numbers.get_key_value(3));
}

#[test]
fn maps_do_what_collections_do() {
    let map: RangeMap<u64, &str> = [(0..10, "a"), (10..20, "a"), (30..40, "b")].into();
    assert_eq!((map.len(), map.key_count(), map[15], map.is_empty()), (2, 30, "a", false));
    let same: RangeMap<u64, &str> = [(30..=39, "b"), (0..=19, "a")].into_iter().collect();
    let hashed = |map: &RangeMap<u64, &str>| {
        use std::hash::{BuildHasher, BuildHasherDefault, DefaultHasher};
        BuildHasherDefault::<DefaultHasher>::default().hash_one(map)
    };
    assert!(
        map == same
            && hashed(&map) == hashed(&same)
            && map.clone() == map
            && RangeMap::<u8, u8>::default().is_empty()
    );
    let mut other = map.clone();
    other.extend([(5..35, "c")]);
    assert!(other != map && other.len() == 3 && map.len() == 2);
    assert_eq!(format!("{other:?}"), r#"{0..5: "a", 5..35: "c", 35..40: "b"}"#);
    assert_eq!(
        other.overlapping(4..6).map(|(range, _)| range).collect::<Vec<_>>(),
        [(0..5).into(), (5..35).into()]
    );
    let rest = other.split_off(35);
    assert_eq!(
        (other.last_range_value(), rest.first_range_value()),
        (Some(((5..35).into(), &"c")), Some(((35..40).into(), &"b")))
    );
    let over = map.overlay(&other);
    assert_eq!((over.get(4), over.get(7), over.get(36)), (Some(&"a"), Some(&"c"), Some(&"b")));
    let keys: RangeSet<u64> = [8..12, 38..50].into();
    assert_eq!((map.restrict(&keys).key_count(), map.without(&keys).key_count()), (6, 24));
    other.append(&mut map.clone());
    assert_eq!(other.get(7), Some(&"a"));
    assert_eq!(other.pop_first().map(|(_, value)| value), Some("a"));
    assert_eq!(other.pop_last().map(|(_, value)| value), Some("b"));
}

/// Keys of each type, their ends among them.
#[test]
fn keys_of_each_type() {
    fn whole<K: btree_range_map_proved::Key + std::hash::Hash>(count: u128) {
        let mut map: RangeMap<K, u8> = RangeMap::new();
        map.insert(.., 1);
        assert_eq!((map.key_count(), map.len(), map[K::LEAST], map[K::GREATEST]), (count, 1, 1, 1));
        map.remove(K::LEAST..=K::LEAST);
        assert_eq!((map.get(K::LEAST), map.key_count()), (None, count - 1));
        let set: RangeSet<K> = [K::LEAST..=K::LEAST].into();
        let others = set.complement();
        assert_eq!(
            (others.key_count(), others.contains(K::GREATEST), set.union(&others).key_count()),
            (count - 1, true, count)
        );
        assert_eq!(
            others.iter().next_back().and_then(|range| range.ends()),
            Some((K::LEAST.successor().unwrap(), K::GREATEST))
        );
        assert!(set.union(&others).len() == 1 && others.complement() == set && set.is_disjoint(&others));
    }
    whole::<u8>(1 << 8);
    whole::<u16>(1 << 16);
    whole::<u32>(1 << 32);
    whole::<u64>(1 << 64);
    whole::<usize>(1 << 64);
    whole::<i8>(1 << 8);
    whole::<i16>(1 << 16);
    whole::<i32>(1 << 32);
    whole::<i64>(1 << 64);
    whole::<isize>(1 << 64);
    whole::<char>(0x11_0000 - 0x800);
    // characters on both sides of the code points that are none touch
    let set: RangeSet<char> = ['a'..='\u{d7ff}', '\u{e000}'..='\u{e010}'].into();
    assert_eq!(set.iter().collect::<Vec<_>>(), [('a'..='\u{e010}').into()]);
    let signed: RangeSet<i8> = std::iter::once(-3..4).collect();
    assert_eq!(
        (signed.first(), signed.contains(-3), signed.contains(4)),
        (Some((-3..4).into()), true, false)
    );
}

#[test]
fn sets_add_and_take_keys() {
    let mut set: RangeSet<u64> = [0..10, 20..30, 10..15].into_iter().collect();
    assert_eq!((set.len(), set.key_count()), (2, 25));
    assert_eq!(set.iter().map(first_and_last).collect::<Vec<_>>(), [(0, 14), (20, 29)]);
    set.remove(3..=3);
    assert!(!set.contains(3) && set.contains(4) && set.intersects(3..5) && !set.intersects(15..20));
    assert_eq!(set.get(25), Some((20..30).into()));
    assert_eq!(set.gaps(2..25).iter().map(first_and_last).collect::<Vec<_>>(), [(3, 3), (15, 19)]);
    assert_eq!(format!("{set:?}"), "{0..3, 3<..15, 20..30}");
    assert_eq!(set.first().map(first_and_last), Some((0, 2)));
    assert_eq!(set.pop_last().map(first_and_last), Some((20, 29)));
    assert_eq!(set.pop_first().map(first_and_last), Some((0, 2)));
    assert_eq!(set.last().map(first_and_last), Some((4, 14)));
    set.clear();
    assert!(set.is_empty() && set == RangeSet::default());
}

/// A range is added where it meets no stored one; one that touches some becomes one with them.
#[test]
fn a_set_takes_free_ranges_as_the_reference() {
    for (seed, keys) in [(5, 60), (6, 1_000)] {
        let mut random = Random(seed);
        let mut set: RangeSet<u64> = RangeSet::new();
        let mut reference = Reference::default();
        for _ in 0..20_000 {
            let first = random.below(keys);
            let last = first + random.below(keys / 12);
            let is_free = !reference.meets(first, last);
            match random.below(4) {
                0 => {
                    assert_eq!(set.try_remove(first..=last), Ok(()));
                    reference.remove(first, last);
                }
                1 => {
                    assert_eq!(set.try_add(first..=last), Ok(()));
                    reference.insert(first, last, 0);
                }
                _ => {
                    let wanted = if is_free { Ok(()) } else { Err(NotInserted::Occupied) };
                    assert_eq!(set.try_insert(first..last + 1), wanted);
                    if is_free {
                        reference.insert(first, last, 0);
                    }
                }
            }
            assert_eq!(set.try_insert(last..first), Ok(()));
            let stored = reference.0.iter().map(|(first, (last, _))| (*first, *last));
            assert!(set.iter().map(first_and_last).eq(stored));
        }
    }
}

#[test]
fn two_sets_make_a_third() {
    let mut random = Random(4);
    for _ in 0..200 {
        let mut drawn = || -> Vec<(u64, u64)> {
            (0..random.below(8)).map(|_| (random.below(100), random.below(20))).collect()
        };
        let (some, more) = (drawn(), drawn());
        let set_of =
            |ranges: &[(u64, u64)]| ranges.iter().map(|(at, n)| *at..at + n).collect::<RangeSet<u64>>();
        let holds =
            |ranges: &[(u64, u64)], key: u64| ranges.iter().any(|(at, n)| (*at..at + n).contains(&key));
        let (set, other) = (set_of(&some), set_of(&more));
        let made = [&set | &other, &set & &other, &set - &other, &set ^ &other, set.complement()];
        for key in 0..130 {
            let (first, second) = (holds(&some, key), holds(&more, key));
            let wanted = [first || second, first && second, first && !second, first != second, !first];
            assert_eq!(made.each_ref().map(|it| it.contains(key)), wanted);
            let before = (0..=key).rev().find(|it| holds(&some, *it));
            assert_eq!(
                set.previous(key).map(|it| first_and_last(it).1 >= before.unwrap()),
                before.map(|_| true)
            );
        }
        assert!(
            (&set | &set) == set
                && (&set & &set) == set
                && (&set - &set).is_empty()
                && (&set ^ &set).is_empty()
        );
        assert!(made[1].is_subset(&set) && made[0].is_superset(&other) && made[2].is_disjoint(&other));
        assert_eq!(set.is_disjoint(&set), set.is_empty());
        assert_eq!(set == other, made[3].is_empty());
    }
}

#[test]
fn collections_move_to_threads_and_are_read_by_several() {
    let map: RangeMap<u64, String> = (0..1000).map(|i| (10 * i..10 * i + 5, i.to_string())).collect();
    let set: RangeSet<u64> = map.iter().map(|(range, _)| range).collect();
    std::thread::scope(|scope| {
        for _ in 0..4 {
            scope.spawn(|| {
                for i in 0..1000 {
                    assert_eq!(map.get(10 * i + 4), Some(&i.to_string()));
                    assert!(set.contains(10 * i) && !set.contains(10 * i + 5));
                }
                assert!(map.iter().count() == 1000 && set.iter().rev().count() == 1000);
            });
        }
    });
    let moved = std::thread::spawn(move || {
        let mut map = map;
        map.remove(..5000);
        map
    });
    assert_eq!(moved.join().unwrap().len(), 500);
}

#[test]
fn texts_are_read_back() {
    let mut map: NumberMap<i64> = NumberMap::new().unwrap();
    map.insert(-5..5, 1).unwrap();
    map.insert(7..9, 2).unwrap();
    let text =
        r#"{"items":[[[{"Included":-5},{"Excluded":5}],1],[[{"Included":7},{"Excluded":9}],2]],"version":2}"#;
    assert_eq!(map.to_json().as_deref(), Ok(text));
    assert_eq!(map.load_json("{"), Err(NotLoaded::NotJson));
    assert_eq!(map.load_json("[0]"), Err(NotLoaded::NotRead));
    assert_eq!(map.to_json().as_deref(), Ok(text));
    map.load_json("[]").unwrap();
    assert!(map.is_empty());
}
