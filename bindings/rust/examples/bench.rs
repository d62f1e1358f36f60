//! What a call costs, beside the same ranges kept over std's `BTreeMap`: nanoseconds a call, best of five.
//!
//!     cargo run --release --example bench [RANGES..]
use btree_range_map_proved::NumberMap;
use std::collections::BTreeMap;
use std::hint::black_box;
use std::time::Instant;

/// Ranges by their first key, with their last and their value; one that is inserted apart from all stored ones.
#[derive(Default)]
struct Reference(BTreeMap<u64, (u64, u64)>);

impl Reference {
    /// Takes the keys away, and cuts a range where it stands. Returns the value of a range that ends right before them.
    fn remove(&mut self, first: u64, last: u64) -> Option<(u64, u64)> {
        while let Some((&start, held)) = self.0.range_mut(..=last).next_back() {
            let (end, value) = *held;
            if end < first {
                return (end + 1 == first).then_some((start, value));
            }
            if start < first {
                held.0 = first - 1;
            } else {
                self.0.remove(&start);
            }
            if last < end {
                self.0.insert(last + 1, (end, value));
            }
            if start < first {
                return Some((start, value));
            }
        }
        None
    }

    /// Inserts as a program does that keeps ranges itself: looks at both neighbours, and joins.
    fn insert(&mut self, first: u64, mut last: u64, value: u64) {
        let before = self.remove(first, last);
        if let Some(&(end, other)) = self.0.get(&(last + 1)) {
            if other == value {
                self.0.remove(&(last + 1));
                last = end;
            }
        }
        match before {
            Some((start, other)) if other == value => self.0.insert(start, (last, value)),
            _ => self.0.insert(first, (last, value)),
        };
    }

    fn get(&self, key: u64) -> Option<u64> {
        let (_, &(last, value)) = self.0.range(..=key).next_back()?;
        (last >= key).then_some(value)
    }
}

/// The numbers below `n` in an order that has no pattern.
fn mixed(n: u64) -> Vec<u64> {
    let mut order: Vec<u64> = (0..n).collect();
    let mut state = 88_172_645_463_325_252u64;
    for i in (1..n).rev() {
        state ^= state << 13;
        state ^= state >> 7;
        state ^= state << 17;
        order.swap(i as usize, (state % (i + 1)) as usize);
    }
    order
}

/// The least time of five runs, in nanoseconds a call.
fn best(calls: u64, mut run: impl FnMut()) -> u128 {
    best_of(calls, || (), |()| run())
}

/// The same, of runs that each have something made before the time begins, and dropped after it ends.
fn best_of<T>(calls: u64, make: impl Fn() -> T, mut run: impl FnMut(&mut T)) -> u128 {
    (0..5)
        .map(|_| {
            let mut made = make();
            let before = Instant::now();
            run(&mut made);
            before.elapsed().as_nanos() / u128::from(calls)
        })
        .min()
        .unwrap()
}

fn proved(order: &[u64]) -> NumberMap<u64> {
    let mut map = NumberMap::new().unwrap();
    for &i in order {
        map.insert(20 * i..20 * i + 10, i).unwrap();
    }
    map
}

fn reference(order: &[u64]) -> Reference {
    let mut map = Reference::default();
    for &i in order {
        map.insert(20 * i, 20 * i + 9, i);
    }
    map
}

/// Has the compiler keep a look-up.
fn look(found: Option<u64>) {
    black_box(found);
}

/// Has the compiler keep a number of ranges.
fn count(ranges: usize) {
    black_box(ranges);
}

fn main() {
    let mut sizes: Vec<u64> = std::env::args().skip(1).map(|it| it.parse().expect("a number")).collect();
    if sizes.is_empty() {
        sizes = vec![1_000, 100_000, 1_000_000];
    }
    println!("| ranges | call | proved | over `BTreeMap` |\n|---|---|---|---|");
    for n in sizes {
        let (order, ascending) = (mixed(n), (0..n).collect::<Vec<_>>());
        let descending = ascending.iter().rev().copied().collect::<Vec<_>>();
        let row = |what, ours, theirs| println!("| {n} | {what} | {ours} | {theirs} |");
        row("insertion, no order", best(n, || drop(proved(&order))), best(n, || drop(reference(&order))));
        row(
            "insertion, ascending",
            best(n, || drop(proved(&ascending))),
            best(n, || drop(reference(&ascending))),
        );
        row(
            "insertion, descending",
            best(n, || drop(proved(&descending))),
            best(n, || drop(reference(&descending))),
        );
        row(
            "insertion that cuts a range in three",
            best_of(
                n,
                || proved(&order),
                |map| order.iter().for_each(|i| map.insert(20 * i + 3..20 * i + 5, n + i).unwrap()),
            ),
            best_of(
                n,
                || reference(&order),
                |map| order.iter().for_each(|i| map.insert(20 * i + 3, 20 * i + 4, n + i)),
            ),
        );
        row(
            "removal of a middle",
            best_of(
                n,
                || proved(&order),
                |map| order.iter().for_each(|i| map.remove(20 * i + 3..20 * i + 5).unwrap()),
            ),
            best_of(
                n,
                || reference(&order),
                |map| {
                    order.iter().for_each(|i| {
                        map.remove(20 * i + 3, 20 * i + 4);
                    })
                },
            ),
        );
        let (ours, theirs) = (proved(&order), reference(&order));
        row(
            "look-up",
            best(n, || order.iter().for_each(|i| look(ours.get(20 * i + 5)))),
            best(n, || order.iter().for_each(|i| look(theirs.get(20 * i + 5)))),
        );
        row(
            "iteration, a range",
            best(n, || ours.iter().for_each(|(_, number)| look(Some(number)))),
            best(n, || theirs.0.values().for_each(|(_, number)| look(Some(*number)))),
        );
        // what a call takes that looks at nothing but the handle
        row(
            "number of ranges",
            best(n, || (0..n).for_each(|_| count(ours.len()))),
            best(n, || (0..n).for_each(|_| count(black_box(&theirs).0.len()))),
        );
    }
}
