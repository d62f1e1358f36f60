//! Random calls on maps and sets of keys of each type, beside a list of what each key is bound to: each public call, and
//! keys at both ends of the type. RANGE_MAP_CALLS is how many calls there are in all.
use btree_range_map_proved::{Key, NotInserted, NumberMap, Range, RangeMap, RangeSet};
use std::collections::BTreeSet;
use std::hash::{BuildHasher, BuildHasherDefault, DefaultHasher, Hash};
use std::ops::{Bound, RangeBounds};
use std::rc::Rc;

/// A generator of random numbers, good enough for tests (xorshift).
struct Random(u64);

impl Random {
    fn below(&mut self, bound: usize) -> usize {
        self.0 ^= self.0 << 13;
        self.0 ^= self.0 >> 7;
        self.0 ^= self.0 << 17;
        (self.0 % bound as u64) as usize
    }

    fn is_one_of(&mut self, bound: usize) -> bool {
        self.below(bound) == 0
    }
}

/// A value that is only `Eq`, and tells how often it is kept.
#[derive(Clone, Debug)]
struct Value(Rc<u8>);

impl PartialEq for Value {
    fn eq(&self, other: &Value) -> bool {
        self.0 == other.0
    }
}

impl Eq for Value {}

/// All keys of a type in order: single ones near both ends and near some key between, and all that lie between those.
struct Keys<K> {
    parts: Vec<(K, K)>,
    place: fn(K) -> i128,
}

type Held<K, V> = Vec<(K, K, V)>;

impl<K: Key> Keys<K> {
    fn new(between: K, place: fn(K) -> i128) -> Keys<K> {
        let mut single = BTreeSet::from([K::LEAST, K::GREATEST, between]);
        for _ in 0..4 {
            let beside = single.iter().flat_map(|key| [key.successor(), key.predecessor()]);
            single.extend(beside.flatten().collect::<Vec<_>>());
        }
        let mut parts: Vec<(K, K)> = Vec::new();
        for key in single {
            if let Some((_, last)) = parts.last().copied() {
                let (first, end) = (last.successor().unwrap(), key.predecessor().unwrap());
                if first <= end {
                    parts.push((first, end));
                }
            }
            parts.push((key, key));
        }
        assert!(parts[0].0 == K::LEAST && parts[parts.len() - 1].1 == K::GREATEST);
        Keys { parts, place }
    }

    fn count(&self, first: K, last: K) -> u128 {
        ((self.place)(last).wrapping_sub((self.place)(first)) as u128).saturating_add(1)
    }

    /// A key, and the part that it is in.
    fn key(&self, random: &mut Random) -> (K, usize) {
        let at = random.below(self.parts.len());
        (if random.is_one_of(2) { self.parts[at].0 } else { self.parts[at].1 }, at)
    }

    /// A range in one of the ways to write it, and the parts that it is made of.
    fn range(&self, random: &mut Random) -> (Range<K>, std::ops::Range<usize>) {
        let (start, width) = (random.below(self.parts.len()), random.below(8));
        let end = if random.is_one_of(12) { self.parts.len() } else { (start + width).min(self.parts.len()) };
        if start == end {
            let (key, _) = self.key(random);
            let empty = match random.below(4) {
                0 => (Bound::Included(key), Bound::Excluded(key)),
                1 => (Bound::Excluded(key), Bound::Included(key)),
                2 => (Bound::Excluded(K::GREATEST), Bound::Unbounded),
                _ => (Bound::Unbounded, Bound::Excluded(K::LEAST)),
            };
            return (empty.into(), 0..0);
        }
        let start = if random.is_one_of(12) { 0 } else { start };
        let first = match start {
            0 if random.is_one_of(2) => Bound::Unbounded,
            at if at > 0 && random.is_one_of(2) => Bound::Excluded(self.parts[at - 1].1),
            at => Bound::Included(self.parts[at].0),
        };
        let last = match self.parts.get(end) {
            Some((next, _)) if random.is_one_of(2) => Bound::Excluded(*next),
            None if random.is_one_of(2) => Bound::Unbounded,
            _ => Bound::Included(self.parts[end - 1].1),
        };
        ((first, last).into(), start..end)
    }

    /// The widest ranges with one value each, of the parts that are bound to one.
    fn joined<V: PartialEq + Clone>(&self, bound: &[Option<V>]) -> Held<K, V> {
        let mut joined: Held<K, V> = Vec::new();
        let mut before = None;
        for ((first, last), value) in self.parts.iter().zip(bound) {
            match (value, joined.last_mut()) {
                (Some(value), Some(held)) if before == Some(value) && held.2 == *value => held.1 = *last,
                (Some(value), _) => joined.push((*first, *last, value.clone())),
                _ => (),
            }
            before = value.as_ref();
        }
        joined
    }

    /// The same of the parts in a range alone, in which those that are free are bound to `None`.
    fn pieces<V: PartialEq + Clone>(
        &self,
        bound: &[Option<V>],
        at: &std::ops::Range<usize>,
    ) -> Held<K, Option<V>> {
        let inside = bound.iter().enumerate().map(|(i, value)| at.contains(&i).then(|| value.clone()));
        self.joined(&inside.collect::<Vec<_>>())
    }

    fn gaps<V: PartialEq + Clone>(&self, bound: &[Option<V>], at: &std::ops::Range<usize>) -> Vec<(K, K)> {
        let pieces = self.pieces(bound, at).into_iter();
        pieces.filter(|(.., value)| value.is_none()).map(|(first, last, _)| (first, last)).collect()
    }

    /// The stored ranges that meet a range.
    fn met<V: PartialEq + Clone>(&self, bound: &[Option<V>], at: &std::ops::Range<usize>) -> Held<K, V> {
        let Some((first, _)) = self.parts.get(at.start).filter(|_| !at.is_empty()) else { return Vec::new() };
        let last = self.parts[at.end - 1].1;
        self.joined(bound).into_iter().filter(|held| held.0 <= last && held.1 >= *first).collect()
    }
}

fn ends<K: Key>(range: &Range<K>) -> (K, K) {
    let (first, last) = range.ends().unwrap();
    assert_eq!((range.first(), range.last(), range.is_empty()), (Some(first), Some(last), false));
    assert_eq!(range.to_inclusive(), first..=last);
    assert!(range.contains(&first) && range.contains(&last));
    (first, last)
}

fn told<K: Key, V: Clone>(found: impl IntoIterator<Item = (Range<K>, V)>) -> Held<K, V> {
    let with_ends = found.into_iter().map(|(range, value)| {
        let (first, last) = ends(&range);
        (first, last, value)
    });
    with_ends.collect()
}

fn cloned<K: Copy, V: Clone>(held: Held<K, &V>) -> Held<K, V> {
    held.into_iter().map(|(first, last, value)| (first, last, value.clone())).collect()
}

fn hashed(it: &impl Hash) -> u64 {
    BuildHasherDefault::<DefaultHasher>::default().hash_one(it)
}

/// How many calls each of three judges makes of each of eleven types.
fn calls() -> usize {
    let all: usize = std::env::var("RANGE_MAP_CALLS").map_or(20_000, |it| it.parse().unwrap());
    all / 33 + 1
}

fn set<V: Clone>(bound: &mut [Option<V>], at: &std::ops::Range<usize>, value: Option<V>) {
    bound[at.clone()].fill(value);
}

/// Some ranges with values, and what they bind, the last of them first.
fn drawn<K: Key, V: Clone>(
    keys: &Keys<K>,
    random: &mut Random,
    values: &[V],
) -> (Vec<(Range<K>, V)>, Vec<Option<V>>) {
    let mut bound = vec![None; keys.parts.len()];
    let mut ranges = Vec::new();
    for _ in 0..random.below(6) {
        let ((range, at), value) = (keys.range(random), values[random.below(values.len())].clone());
        set(&mut bound, &at, Some(value.clone()));
        ranges.push((range, value));
    }
    (ranges, bound)
}

fn judge_map<K: Key + Hash>(keys: &Keys<K>, seed: u64) {
    let mut random = Random(seed);
    let values: Vec<Value> = (0..4).map(|at| Value(Rc::new(at))).collect();
    let mut map: RangeMap<K, Value> = RangeMap::new();
    let mut bound: Vec<Option<Value>> = vec![None; keys.parts.len()];
    for _ in 0..calls() {
        let (range, at) = keys.range(&mut random);
        let (key, part) = keys.key(&mut random);
        let drawn_value = random.below(4);
        let value = || values[drawn_value].clone();
        let is_free = bound[at.clone()].iter().all(Option::is_none);
        match random.below(30) {
            0..6 => {
                map.insert(range, value());
                set(&mut bound, &at, Some(value()));
            }
            6..8 => {
                map.remove(range);
                set(&mut bound, &at, None);
            }
            8 => {
                let wanted = if is_free { Ok(()) } else { Err(value()) };
                assert_eq!(map.try_insert(range, value()), wanted);
                if is_free {
                    set(&mut bound, &at, Some(value()));
                }
            }
            9 => {
                let wide = at.start.saturating_sub(1)..(at.end + 1).min(keys.parts.len());
                let is_apart = at.is_empty() || bound[wide].iter().all(Option::is_none);
                let wanted = if is_apart { Ok(()) } else { Err(value()) };
                assert_eq!(map.insert_disconnected(range, value()), wanted);
                if is_apart {
                    set(&mut bound, &at, Some(value()));
                }
            }
            10..12 => {
                let change = |it: Option<&Value>| match it.map(|it| *it.0) {
                    None => Some(values[1].clone()),
                    Some(3) => None,
                    Some(at) => Some(values[usize::from(at) + 1].clone()),
                };
                map.update(range, change);
                bound[at].iter_mut().for_each(|it| *it = change(it.as_ref()));
            }
            12 => {
                let (ranges, over) = drawn(keys, &mut random, &values);
                map.extend(ranges);
                bound.iter_mut().zip(over).for_each(|(it, over)| *it = over.or(it.take()));
            }
            13 => {
                assert_eq!(
                    map.pop_first().map(|it| told([it])),
                    keys.joined(&bound).first().map(|it| vec![it.clone()])
                );
                remove_run(keys, &mut bound, |joined| joined.first().cloned());
            }
            14 => {
                assert_eq!(
                    map.pop_last().map(|it| told([it])),
                    keys.joined(&bound).last().map(|it| vec![it.clone()])
                );
                remove_run(keys, &mut bound, |joined| joined.last().cloned());
            }
            15 => {
                let mut rest = map.split_off(keys.parts[part].0);
                assert_eq!(cloned(told(&map)), keys.joined(&bound[..part]));
                let beyond: Vec<_> =
                    bound.iter().enumerate().map(|(i, it)| it.clone().filter(|_| i >= part)).collect();
                assert_eq!(cloned(told(&rest)), keys.joined(&beyond));
                if random.is_one_of(2) {
                    map.append(&mut rest);
                    assert!(rest.is_empty() && rest.value_count() == 0);
                } else {
                    drop(std::mem::replace(&mut map, rest));
                    bound[..part].fill(None);
                }
            }
            16 => {
                let (ranges, over) = drawn(keys, &mut random, &values);
                let other: RangeMap<K, Value> = ranges.into_iter().collect();
                assert_eq!(cloned(told(&other)), keys.joined(&over));
                let overlaid: Vec<_> =
                    over.iter().zip(&bound).map(|(over, it)| over.clone().or(it.clone())).collect();
                assert_eq!(cloned(told(&map.overlay(&other))), keys.joined(&overlaid));
                let sum = |one: Option<&Value>, two: Option<&Value>| {
                    assert!(one.is_some() || two.is_some());
                    Some(one.map_or(0, |it| *it.0) * 10 + two.map_or(0, |it| *it.0)).filter(|it| it % 4 > 0)
                };
                let both = bound.iter().zip(&over);
                let merged: Vec<_> = both
                    .map(|(one, two)| {
                        one.as_ref().or(two.as_ref()).and_then(|_| sum(one.as_ref(), two.as_ref()))
                    })
                    .collect();
                assert_eq!(cloned(told(&map.merge_with(&other, sum))), keys.joined(&merged));
                let some: RangeSet<K> = other.iter().map(|(range, _)| range).collect();
                let kept: Vec<_> =
                    over.iter().zip(&bound).map(|(over, it)| it.clone().filter(|_| over.is_some())).collect();
                let rest: Vec<_> =
                    over.iter().zip(&bound).map(|(over, it)| it.clone().filter(|_| over.is_none())).collect();
                assert_eq!(cloned(told(&map.restrict(&some))), keys.joined(&kept));
                assert_eq!(cloned(told(&map.without(&some))), keys.joined(&rest));
                assert_eq!(map == other, bound == over);
            }
            17 => {
                let copy = map.clone();
                assert!(copy == map && format!("{copy:?}") == format!("{map:?}"));
                let forward = told(copy.clone());
                assert!(
                    forward == keys.joined(&bound)
                        && told(copy.into_iter().rev()).iter().eq(forward.iter().rev())
                );
                map.shrink_to_fit();
            }
            18 if random.is_one_of(8) => {
                map.clear();
                bound.fill(None);
            }
            19 => {
                let parts = keys.pieces(&bound, &at);
                let shown =
                    told(map.pieces(range)).into_iter().map(|(first, last, it)| (first, last, it.cloned()));
                assert_eq!(shown.collect::<Vec<_>>(), parts);
                assert_eq!(map.gaps(range).map(|it| ends(&it)).collect::<Vec<_>>(), keys.gaps(&bound, &at));
                assert_eq!(cloned(told(map.overlapping(range))), keys.met(&bound, &at));
                assert!(
                    map.iter().rev().map(|(range, _)| range).eq(map
                        .iter()
                        .map(|(range, _)| range)
                        .collect::<Vec<_>>()
                        .into_iter()
                        .rev())
                );
            }
            20 => {
                let many = (0..random.below(100)).map(|_| keys.key(&mut random)).collect::<Vec<_>>();
                let found = map.get_many(many.iter().map(|(key, _)| *key));
                assert!(found.eq(many.iter().map(|(_, part)| bound[*part].as_ref())));
            }
            _ => {
                let joined = keys.joined(&bound);
                let holds = |held: &&(K, K, Value)| held.0 <= key && key <= held.1;
                assert_eq!(map.get(key), bound[part].as_ref());
                assert_eq!(map.contains_key(key), bound[part].is_some());
                if map.contains_key(key) {
                    assert_eq!(Some(&map[key]), bound[part].as_ref());
                }
                assert_eq!(
                    map.get_key_value(key).map(|it| cloned(told([it]))),
                    joined.iter().find(holds).map(|it| vec![it.clone()])
                );
                assert_eq!(
                    map.next(key).map(|it| cloned(told([it]))),
                    joined.iter().find(|it| it.1 >= key).map(|it| vec![it.clone()])
                );
                assert_eq!(
                    map.previous(key).map(|it| cloned(told([it]))),
                    joined.iter().rfind(|it| it.0 <= key).map(|it| vec![it.clone()])
                );
                assert_eq!(
                    map.first_range_value().map(|it| cloned(told([it]))),
                    joined.first().map(|it| vec![it.clone()])
                );
                assert_eq!(
                    map.last_range_value().map(|it| cloned(told([it]))),
                    joined.last().map(|it| vec![it.clone()])
                );
                assert_eq!(map.intersects(range), !is_free);
                assert_eq!(map.key_count(), joined.iter().map(|it| keys.count(it.0, it.1)).fold(0, u128::saturating_add));
                assert_eq!(map.key_count(), map.iter().map(|(range, _)| range.len()).fold(0, u128::saturating_add));
            }
        }
        let joined = keys.joined(&bound);
        assert_eq!(cloned(told(&map)), joined);
        assert_eq!((map.len(), map.is_empty()), (joined.len(), joined.is_empty()));
        // each value that is kept is that of some range
        assert!(map.value_count() <= map.len());
        let in_bound = bound.iter().flatten().chain(joined.iter().map(|(.., it)| it)).count();
        assert_eq!(
            values.iter().map(|it| Rc::strong_count(&it.0)).sum::<usize>(),
            4 + map.value_count() + in_bound
        );
    }
    let (first, last) = (keys.parts[0].0, keys.parts[keys.parts.len() - 1].1);
    map.insert(.., values[0].clone());
    assert_eq!((map.len(), map.key_count(), map.value_count()), (1, keys.count(first, last), 1));
}

/// Unbinds what is bound in the run that is chosen.
fn remove_run<K: Key, V: PartialEq + Clone>(
    keys: &Keys<K>,
    bound: &mut [Option<V>],
    choose: impl Fn(&Held<K, V>) -> Option<(K, K, V)>,
) {
    if let Some((first, last, _)) = choose(&keys.joined(bound)) {
        let inside = keys.parts.iter().zip(bound).filter(|((start, _), _)| (first..=last).contains(start));
        inside.for_each(|(_, it)| *it = None);
    }
}

fn judge_numbers<K: Key + Hash>(keys: &Keys<K>, seed: u64) {
    let mut random = Random(seed);
    let mut map: NumberMap<K> = NumberMap::new().unwrap();
    let mut bound: Vec<Option<u64>> = vec![None; keys.parts.len()];
    for _ in 0..calls() {
        let (range, at) = keys.range(&mut random);
        let (key, part) = keys.key(&mut random);
        let value = [0, 1, u64::MAX][random.below(3)];
        let is_free = bound[at.clone()].iter().all(Option::is_none);
        match random.below(20) {
            0..5 => {
                map.insert(range, value).unwrap();
                set(&mut bound, &at, Some(value));
            }
            5..7 => {
                map.remove(range).unwrap();
                set(&mut bound, &at, None);
            }
            7 => {
                let wanted = if is_free { Ok(()) } else { Err(NotInserted::Occupied) };
                assert_eq!(map.try_insert(range, value), wanted);
                if is_free {
                    set(&mut bound, &at, Some(value));
                }
            }
            8 => {
                let wide = at.start.saturating_sub(1)..(at.end + 1).min(keys.parts.len());
                let is_apart = at.is_empty() || bound[wide].iter().all(Option::is_none);
                let wanted = if is_apart { Ok(()) } else { Err(NotInserted::Connected) };
                assert_eq!(map.insert_disconnected(range, value), wanted);
                if is_apart {
                    set(&mut bound, &at, Some(value));
                }
            }
            9 => {
                let (ranges, over) = drawn(keys, &mut random, &[0, 1, u64::MAX]);
                map.insert_many(ranges).unwrap();
                bound.iter_mut().zip(over).for_each(|(it, over)| *it = over.or(it.take()));
            }
            10 => {
                assert_eq!(
                    map.pop_first().map(|it| told([it])),
                    keys.joined(&bound).first().map(|it| vec![*it])
                );
                remove_run(keys, &mut bound, |joined| joined.first().copied());
            }
            11 => {
                assert_eq!(
                    map.pop_last().map(|it| told([it])),
                    keys.joined(&bound).last().map(|it| vec![*it])
                );
                remove_run(keys, &mut bound, |joined| joined.last().copied());
            }
            12 => {
                let mut rest = map.split_off(keys.parts[part].0).unwrap();
                assert_eq!(told(&map), keys.joined(&bound[..part]));
                if !rest.is_empty() && !map.is_empty() {
                    assert_eq!(rest.append(&mut map), Err(NotInserted::OutOfOrder));
                }
                assert_eq!((map.append(&mut rest), rest.len()), (Ok(()), 0));
            }
            13 => {
                let (ranges, over) = drawn(keys, &mut random, &[0, 1, u64::MAX]);
                let mut other: NumberMap<K> = NumberMap::new().unwrap();
                other.insert_many(ranges).unwrap();
                let both = || bound.iter().zip(&over);
                let overlaid: Vec<_> = both().map(|(it, over)| over.or(*it)).collect();
                let kept: Vec<_> = both().map(|(it, over)| it.filter(|_| over.is_some())).collect();
                let rest: Vec<_> = both().map(|(it, over)| it.filter(|_| over.is_none())).collect();
                assert_eq!(told(&map.overlay(&other).unwrap()), keys.joined(&overlaid));
                assert_eq!(told(&map.restrict(&other).unwrap()), keys.joined(&kept));
                assert_eq!(told(&map.without(&other).unwrap()), keys.joined(&rest));
                assert_eq!(map == other, bound == over);
                let copy = map.try_clone().unwrap();
                assert!(
                    copy == map && hashed(&copy) == hashed(&map) && format!("{copy:?}") == format!("{map:?}")
                );
                assert!(map.overlay(&map).unwrap() == map && map.without(&map).unwrap().is_empty());
            }
            14 if random.is_one_of(8) => {
                map.clear();
                bound.fill(None);
            }
            15 => {
                assert_eq!(told(map.pieces(range)), keys.pieces(&bound, &at));
                assert_eq!(map.gaps(range).map(|it| ends(&it)).collect::<Vec<_>>(), keys.gaps(&bound, &at));
                assert_eq!(told(map.overlapping(range)), keys.met(&bound, &at));
                let many = (0..random.below(100)).map(|_| keys.key(&mut random)).collect::<Vec<_>>();
                let found = map.get_many(many.iter().map(|(key, _)| *key));
                assert!(found.eq(many.iter().map(|(_, part)| bound[*part])));
            }
            _ => {
                let joined = keys.joined(&bound);
                let holds = |held: &&(K, K, u64)| held.0 <= key && key <= held.1;
                assert_eq!((map.get(key), map.contains_key(key)), (bound[part], bound[part].is_some()));
                assert_eq!(
                    map.get_key_value(key).map(|it| told([it])),
                    joined.iter().find(holds).map(|it| vec![*it])
                );
                assert_eq!(
                    map.next(key).map(|it| told([it])),
                    joined.iter().find(|it| it.1 >= key).map(|it| vec![*it])
                );
                assert_eq!(
                    map.previous(key).map(|it| told([it])),
                    joined.iter().rfind(|it| it.0 <= key).map(|it| vec![*it])
                );
                assert_eq!(map.first_range_value().map(|it| told([it])), joined.first().map(|it| vec![*it]));
                assert_eq!(map.last_range_value().map(|it| told([it])), joined.last().map(|it| vec![*it]));
                assert_eq!(map.intersects(range), !is_free);
                assert_eq!(map.key_count(), joined.iter().map(|it| keys.count(it.0, it.1)).fold(0, u128::saturating_add));
            }
        }
        let joined = keys.joined(&bound);
        assert_eq!(told(&map), joined);
        assert!(told(map.iter().rev()).iter().eq(joined.iter().rev()));
        assert_eq!(
            (map.len(), map.is_empty(), map.iter().len()),
            (joined.len(), joined.is_empty(), joined.len())
        );
    }
}

fn judge_set<K: Key + Hash>(keys: &Keys<K>, seed: u64) {
    let mut random = Random(seed);
    let mut held: RangeSet<K> = RangeSet::new();
    let mut bound: Vec<Option<()>> = vec![None; keys.parts.len()];
    let plain =
        |joined: Held<K, ()>| joined.into_iter().map(|(first, last, ())| (first, last)).collect::<Vec<_>>();
    let shown = |held: &RangeSet<K>| held.iter().map(|it| ends(&it)).collect::<Vec<_>>();
    for _ in 0..calls() {
        let (range, at) = keys.range(&mut random);
        let (key, part) = keys.key(&mut random);
        let is_free = bound[at.clone()].iter().all(Option::is_none);
        match random.below(20) {
            0..5 => {
                if random.is_one_of(2) {
                    held.insert(range);
                } else {
                    assert_eq!(held.try_add(range), Ok(()));
                }
                set(&mut bound, &at, Some(()));
            }
            5..8 => {
                if random.is_one_of(2) {
                    held.remove(range);
                } else {
                    assert_eq!(held.try_remove(range), Ok(()));
                }
                set(&mut bound, &at, None);
            }
            8 => {
                let wanted = if is_free { Ok(()) } else { Err(NotInserted::Occupied) };
                assert_eq!(held.try_insert(range), wanted);
                set(&mut bound, if is_free { &at } else { &(0..0) }, Some(()));
            }
            9 => {
                let (ranges, over) = drawn(keys, &mut random, &[()]);
                held.extend(ranges.into_iter().map(|(range, ())| range));
                bound.iter_mut().zip(over).for_each(|(it, over)| *it = over.or(*it));
            }
            10 => {
                assert_eq!(held.pop_first().map(|it| ends(&it)), plain(keys.joined(&bound)).first().copied());
                remove_run(keys, &mut bound, |joined| joined.first().copied());
            }
            11 => {
                assert_eq!(held.pop_last().map(|it| ends(&it)), plain(keys.joined(&bound)).last().copied());
                remove_run(keys, &mut bound, |joined| joined.last().copied());
            }
            12..14 => {
                let (ranges, over) = drawn(keys, &mut random, &[()]);
                let other: RangeSet<K> = ranges.into_iter().map(|(range, ())| range).collect();
                let made = |call: fn(bool, bool) -> bool| {
                    let parts = bound.iter().zip(&over);
                    let parts: Vec<_> =
                        parts.map(|(it, over)| call(it.is_some(), over.is_some()).then_some(())).collect();
                    plain(keys.joined(&parts))
                };
                assert_eq!(shown(&(&held | &other)), made(|it, over| it || over));
                assert_eq!(shown(&(&held & &other)), made(|it, over| it && over));
                assert_eq!(shown(&(&held - &other)), made(|it, over| it && !over));
                assert_eq!(shown(&(&held ^ &other)), made(|it, over| it != over));
                assert_eq!(shown(&held.complement()), made(|it, _| !it));
                assert_eq!(held.is_subset(&other), made(|it, over| it && !over).is_empty());
                assert_eq!(held.is_superset(&other), made(|it, over| over && !it).is_empty());
                assert_eq!(held.is_disjoint(&other), made(|it, over| it && over).is_empty());
                assert_eq!(held == other, bound == over);
                let copy = held.clone();
                assert!(
                    copy == held
                        && hashed(&copy) == hashed(&held)
                        && format!("{copy:?}") == format!("{held:?}")
                );
                assert!(
                    &held | &held == held
                        && (&held - &held).is_empty()
                        && held.complement().complement() == held
                );
                assert!(copy.into_iter().eq(&held));
            }
            14 if random.is_one_of(8) => {
                held.clear();
                bound.fill(None);
            }
            15 => {
                assert_eq!(shown(&held.gaps(range)), keys.gaps(&bound, &at));
                let met = held.overlapping(range).map(|it| ends(&it)).collect::<Vec<_>>();
                assert_eq!(met, plain(keys.met(&bound, &at)));
            }
            _ => {
                let joined = plain(keys.joined(&bound));
                assert_eq!(held.contains(key), bound[part].is_some());
                assert_eq!(
                    held.get(key).map(|it| ends(&it)),
                    joined.iter().find(|it| it.0 <= key && key <= it.1).copied()
                );
                assert_eq!(held.next(key).map(|it| ends(&it)), joined.iter().find(|it| it.1 >= key).copied());
                assert_eq!(
                    held.previous(key).map(|it| ends(&it)),
                    joined.iter().rfind(|it| it.0 <= key).copied()
                );
                assert_eq!(held.first().map(|it| ends(&it)), joined.first().copied());
                assert_eq!(held.last().map(|it| ends(&it)), joined.last().copied());
                assert_eq!(held.intersects(range), !is_free);
                assert_eq!(held.key_count(), joined.iter().map(|it| keys.count(it.0, it.1)).fold(0, u128::saturating_add));
            }
        }
        let joined = plain(keys.joined(&bound));
        assert_eq!(shown(&held), joined);
        assert!(held.iter().rev().map(|it| ends(&it)).eq(joined.iter().rev().copied()));
        assert_eq!((held.len(), held.is_empty()), (joined.len(), joined.is_empty()));
    }
}

fn judge<K: Key + Hash>(between: K, place: fn(K) -> i128) {
    let keys = Keys::new(between, place);
    judge_map(&keys, 7);
    judge_numbers(&keys, 8);
    judge_set(&keys, 9);
}

macro_rules! judges {
    ($($name:ident: $key:ty, $between:expr;)*) => {$(
        #[test]
        fn $name() {
            judge::<$key>($between, |key| key as i128);
        }
    )*};
}

judges! {
    u8_keys: u8, 128;
    u16_keys: u16, 1000;
    u32_keys: u32, 1 << 31;
    u64_keys: u64, 1 << 63;
    usize_keys: usize, 1 << 63;
    i8_keys: i8, 0;
    i16_keys: i16, 0;
    i32_keys: i32, -1;
    i64_keys: i64, 0;
    isize_keys: isize, 0;
    u128_keys: u128, 1 << 64;
    i128_keys: i128, 0;
}

/// In the middle lie the characters on both sides of the code points that are none.
#[test]
fn characters() {
    judge('\u{d7ff}', |key| {
        let code = key as i128;
        if code < 0xd800 { code } else { code - 0x800 }
    });
}

#[test]
fn debug_output_is_alike_for_each_type() {
    fn shown<K: Key>() -> String {
        let mut map: RangeMap<K, u8> = RangeMap::new();
        map.insert(.., 1);
        let set: RangeSet<K> = std::iter::once(..).collect();
        format!("{map:?} {set:?} {:?}", map.as_numbers())
    }
    assert_eq!(shown::<u8>(), "{0..=255: 1} {0..=255} {0..=255: 0}");
    assert_eq!(shown::<u64>(), shown::<u8>().replace("255", &u64::MAX.to_string()));
    assert_eq!(
        shown::<i64>(),
        shown::<i8>().replace("-128", &i64::MIN.to_string()).replace("127", &i64::MAX.to_string())
    );
}

/// All keys of 128 bits are one more than can be counted.
#[test]
fn keys_of_128_bits() {
    let loopback = u128::from(std::net::Ipv6Addr::LOCALHOST);
    let mut map: RangeMap<u128, &str> = [(loopback..=loopback, "this")].into();
    map.insert(1 << 127.., "high");
    assert_eq!((map.key_count(), map.get(u128::MAX)), ((1 << 127) + 1, Some(&"high")));
    assert_eq!(format!("{map:?}"), format!("{{1..=1: \"this\", {}..={}: \"high\"}}", 1u128 << 127, u128::MAX));
    map.remove(..=1);
    map.insert(..u128::MAX, "all but one");
    assert_eq!((map.key_count(), map.len()), (u128::MAX, 2));
    map.insert(u128::MAX..=u128::MAX, "all but one");
    assert_eq!((map.key_count(), map.len()), (u128::MAX, 1));
    let set: RangeSet<i128> = [i128::MIN..=i128::MIN, i128::MAX..=i128::MAX].into();
    assert_eq!(set.complement(), [i128::MIN + 1..=i128::MAX - 1].into());
    assert_eq!((set.next(0), set.previous(0)), (set.last(), set.first()));
}

#[test]
fn characters_at_the_end_have_successors() {
    let mut map: RangeMap<char, u8> = RangeMap::new();
    assert_eq!(map.insert_disconnected('a'..=char::MAX, 1), Ok(()));
    assert_eq!(('\u{10fffe}'.successor(), char::MAX.successor()), (Some(char::MAX), None));
    assert_eq!(('\0'.predecessor(), '\u{e000}'.predecessor()), (None, Some('\u{d7ff}')));
    assert_eq!(map.gaps('\u{10fffe}'..).count() + map.pieces('\u{10fffe}'..).count(), 1);
}
