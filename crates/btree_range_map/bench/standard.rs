//! Does what `algebra.txt` times with two maps or sets of ranges, over std's map of their first keys.
use std::collections::BTreeMap;
use std::time::Instant;

/// So many ranges has the other map where it has few.
const FEW: u32 = 100;

/// The last key and the value of each range, by its first key.
type Map<V> = BTreeMap<u32, (u32, V)>;

/// First and last keys, and numbers to make values of.
type Ranges = Vec<(u32, u32, u32)>;

/// Ranges of 1 to 16 keys, with gaps of 1 to 16 times as many keys as `spread` says.
fn ranges(count: u32, seed: u32, spread: u32) -> Ranges {
    let (mut state, mut start) = (seed, 0);
    let mut next = |_| {
        state = state.wrapping_mul(1664525).wrapping_add(1013904223);
        let first = start + ((state >> 28) + 1) * spread;
        let last = first + ((state >> 24) & 15);
        start = last + 1;
        (first, last, (state >> 20) & 15)
    };
    (0..count).map(&mut next).collect()
}

/// The ranges in another order, in which each stands once where their number has no factor 7919.
fn scattered(ranges: &Ranges) -> Ranges {
    (0..ranges.len()).map(|step| ranges[step * 7919 % ranges.len()]).collect()
}

fn map_of<V>(ranges: &Ranges, value: impl Fn(u32) -> V) -> Map<V> {
    let mut map = Map::new();
    for &(first, last, drawn) in ranges {
        map.insert(first, (last, value(drawn)));
    }
    map
}

/// Goes once over both maps, and makes one of what the closure says to each piece.
fn merged<V: Copy + PartialEq>(left: &Map<V>, right: &Map<V>, f: impl Fn(Option<V>, Option<V>) -> Option<V>) -> Map<V> {
    let mut lefts = left.iter().map(|(&first, &(last, value))| (first, last, value));
    let mut rights = right.iter().map(|(&first, &(last, value))| (first, last, value));
    let (mut one, mut other) = (lefts.next(), rights.next());
    let mut pieces: Vec<(u32, (u32, V))> = Vec::new();
    loop {
        let (first, last, value) = match (one, other) {
            (None, None) => break,
            (Some((first, last, value)), other) if other.is_none_or(|other| last < other.0) => {
                one = lefts.next();
                (first, last, f(Some(value), None))
            }
            (one, Some((first, last, value))) if one.is_none_or(|one| last < one.0) => {
                other = rights.next();
                (first, last, f(None, Some(value)))
            }
            (Some(left), Some(right)) if left.0 < right.0 => {
                one = Some((right.0, left.1, left.2));
                (left.0, right.0 - 1, f(Some(left.2), None))
            }
            (Some(left), Some(right)) if right.0 < left.0 => {
                other = Some((left.0, right.1, right.2));
                (right.0, left.0 - 1, f(None, Some(right.2)))
            }
            (Some(left), Some(right)) => {
                let last = left.1.min(right.1);
                one = if left.1 > last { Some((last + 1, left.1, left.2)) } else { lefts.next() };
                other = if right.1 > last { Some((last + 1, right.1, right.2)) } else { rights.next() };
                (left.0, last, f(Some(left.2), Some(right.2)))
            }
            (_, None) | (None, _) => unreachable!(),
        };
        let Some(value) = value else { continue };
        match pieces.last_mut() {
            Some((_, (end, before))) if *end + 1 == first && *before == value => *end = last,
            _ => pieces.push((first, (last, value))),
        }
    }
    pieces.into_iter().collect()
}

/// Unbinds the keys from `first` to `last`, and keeps what stands out on both sides.
fn remove<V: Copy>(map: &mut Map<V>, first: u32, last: u32) {
    if let Some((_, range)) = map.range_mut(..first).next_back() {
        let (end, value) = *range;
        if end >= first {
            range.0 = first - 1;
        }
        if end > last {
            map.insert(last + 1, (end, value));
            return;
        }
    }
    if let Some((_, (end, value))) = map.extract_if(first..=last, |_, _| true).last() {
        if end > last {
            map.insert(last + 1, (end, value));
        }
    }
}

fn insert<V: Copy + PartialEq>(map: &mut Map<V>, first: u32, last: u32, value: V) {
    remove(map, first, last);
    let (mut from, mut to) = (first, last);
    if let Some((&start, &(end, before))) = map.range(..first).next_back() {
        if end == first - 1 && before == value {
            from = start;
        }
    }
    if let Some(&(end, after)) = map.get(&(last + 1)) {
        if after == value {
            map.remove(&(last + 1));
            to = end;
        }
    }
    map.insert(from, (to, value));
}

fn insert_all<V: Copy + PartialEq>(map: &mut Map<V>, other: &Map<V>) {
    for (&first, &(last, value)) in other {
        insert(map, first, last, value);
    }
}

fn remove_all<V: Copy>(map: &mut Map<V>, other: &Map<V>) {
    for (&first, &(last, _)) in other {
        remove(map, first, last);
    }
}

/// Removes the keys of each gap of the other map.
fn retain_all<V: Copy>(map: &mut Map<V>, other: &Map<V>) {
    let mut start = 0;
    for (&first, &(last, _)) in other {
        if start < first {
            remove(map, start, first - 1);
        }
        start = last + 1;
    }
    remove(map, start, u32::MAX);
}

/// Changes what there is before, so often, and prints the least time that it took and a sum of what comes of it.
fn time<V>(times: u32, before: impl Fn() -> Map<V>, change: impl Fn(&mut Map<V>), number: impl Fn(&V) -> u64) {
    let mut least = u128::MAX;
    let mut last = Map::new();
    for _ in 0..times {
        let mut made = before();
        let start = Instant::now();
        change(&mut made);
        least = least.min(start.elapsed().as_nanos());
        last = made;
    }
    let mixed = |sum: u64, number: u64| sum.wrapping_mul(31).wrapping_add(number);
    let sum = last.iter().fold(0, |sum, (&first, (last, value))| {
        mixed(mixed(mixed(sum, first.into()), u64::from(last.wrapping_add(1))), number(value))
    });
    println!("{least} {sum}");
}

/// The kinds that maps and sets have alike: those that change one in place.
fn change<V: Copy + PartialEq>(
    kind: &str,
    times: u32,
    [map, other]: [&Map<V>; 2],
    greatest: V,
    number: impl Fn(&V) -> u64,
) {
    let copy = || {
        let mut copy = map.clone();
        copy.insert(u32::MAX, (u32::MAX, greatest));
        copy
    };
    match kind {
        "copy" => time(times, copy, |_| (), number),
        "extend" | "extend_from" => time(times, copy, |made| insert_all(made, other), number),
        "remove_all" => time(times, copy, |made| remove_all(made, other), number),
        "retain_all" => time(times, copy, |made| retain_all(made, other), number),
        _ => panic!("no such kind"),
    }
}

fn time_maps(kind: &str, times: u32, [map, other]: [&Map<i64>; 2]) {
    let number = |&value: &i64| value as u64;
    let sum = |one: Option<i64>, other: Option<i64>| Some(one.unwrap_or(0).wrapping_add(other.unwrap_or(0)));
    let alone = |one: Option<i64>, other: Option<i64>| if other.is_none() { one } else { None };
    match kind {
        "combine" => time(times, Map::new, |made| *made = merged(map, other, sum), number),
        "overlay" => time(times, Map::new, |made| *made = merged(map, other, |one, other| other.or(one)), number),
        "restrict" => time(times, Map::new, |made| *made = merged(map, other, |one, other| other.and(one)), number),
        "without" => time(times, Map::new, |made| *made = merged(map, other, alone), number),
        _ => change(kind, times, [map, other], 0, number),
    }
}

fn time_sets(kind: &str, times: u32, [set, other]: [&Map<()>; 2]) {
    let number = |&(): &()| 0;
    let alone = |one: Option<()>, other: Option<()>| if other.is_none() { one } else { None };
    match kind {
        "union" => time(times, Map::new, |made| *made = merged(set, other, |one, other| one.or(other)), number),
        "intersection" => time(times, Map::new, |made| *made = merged(set, other, |one, other| one.and(other)), number),
        "difference" => time(times, Map::new, |made| *made = merged(set, other, alone), number),
        "symmetric_difference" => {
            time(times, Map::new, |made| *made = merged(set, other, |one, other| one.xor(other)), number);
        }
        _ => change(kind, times, [set, other], (), number),
    }
}

fn main() {
    let words: Vec<String> = std::env::args().skip(1).collect();
    let (count, times) = (words[3].parse().unwrap(), words[4].parse().unwrap());
    let first = scattered(&ranges(count, 1, 1));
    let second = if words[2] == "few" { ranges(FEW, 3, count / FEW) } else { scattered(&ranges(count, 2, 1)) };
    if words[0] == "sets" {
        let [set, other] = [first, second].map(|ranges| map_of(&ranges, |_| ()));
        time_sets(&words[1], times, [&set, &other]);
    } else {
        let [map, other] = [first, second].map(|ranges| map_of(&ranges, i64::from));
        time_maps(&words[1], times, [&map, &other]);
    }
}
