//! Tables of prefixes beside a plain model: what they route, how few they are, and the map of them again.
use btree_range_map_proved::{NumberMap, Prefix, RangeMap};
use std::collections::BTreeSet;

/// A generator of numbers, the same in each run.
struct Random(u64);

impl Random {
    fn below(&mut self, bound: u64) -> u64 {
        self.0 = self.0.wrapping_mul(6364136223846793005).wrapping_add(1442695040888963407);
        (self.0 >> 33) % bound
    }
}

/// What the keys of a block are best given from above, and its halves.
struct Block {
    labels: BTreeSet<u8>,
    halves: Option<Box<[Block; 2]>>,
}

/// The textbook's algorithm, from the bottom up: no labels where a key is not bound.
fn block(keys: &[Option<u8>]) -> Block {
    let [key] = keys else {
        let (low, high) = keys.split_at(keys.len() / 2);
        let halves = [block(low), block(high)];
        let [low, high] = [&halves[0].labels, &halves[1].labels];
        let labels = match () {
            () if low.is_empty() || high.is_empty() => BTreeSet::new(),
            () if low.is_disjoint(high) => low | high,
            () => low & high,
        };
        return Block { labels, halves: Some(Box::new(halves)) };
    };
    Block { labels: key.iter().copied().collect(), halves: None }
}

/// How many entries the block needs below a label.
fn entries(block: &Block, above: Option<u8>) -> usize {
    let kept = above.filter(|label| block.labels.contains(label));
    let label = kept.or(block.labels.first().copied());
    let own = usize::from(label.is_some() && kept.is_none());
    own + block.halves.iter().flat_map(|it| it.iter()).map(|half| entries(half, label)).sum::<usize>()
}

fn routed(table: &[(Prefix<u8>, &u8)], key: u8) -> Option<u8> {
    let holding = table.iter().filter(|(prefix, _)| prefix.range().to_inclusive().contains(&key));
    holding.max_by_key(|(prefix, _)| prefix.length()).map(|(_, value)| **value)
}

#[test]
fn drawn_maps_have_tables_as_short_as_the_textbooks() {
    let mut random = Random(7);
    for _ in 0..300 {
        let mut keys = [None; 256];
        let mut map: RangeMap<u8, u8> = RangeMap::new();
        for _ in 0..random.below(12) {
            let first = random.below(256) as u8;
            let last = first + random.below(256 - u64::from(first)) as u8;
            match random.below(4) {
                0 => map.remove(first..=last),
                value => map.insert(first..=last, value as u8),
            }
            for key in first..=last {
                keys[usize::from(key)] = map.get(key).copied();
            }
        }
        let table = map.shortest();
        assert_eq!(table.len(), entries(&block(&keys), None), "{map:?}");
        assert!((0..=255).all(|key| routed(&table, key) == keys[usize::from(key)]), "{map:?}");
        let apart = table.iter().rev().map(|(prefix, value)| (*prefix, **value));
        assert_eq!(RangeMap::from_prefixes(apart), map);
    }
}

/// The first key, the last one and all of them, of keys of 32 and of 128 bits.
#[test]
fn tables_reach_both_ends() {
    let ends: RangeMap<u32, &str> = [(0..=0, "first"), (u32::MAX..=u32::MAX, "last")].into();
    let shown: Vec<_> =
        ends.shortest().iter().map(|(it, value)| (it.network(), it.length(), **value)).collect();
    assert_eq!(shown, [(0, 32, "first"), (u32::MAX, 32, "last")]);
    let ends: RangeMap<u128, &str> = [(0..=0, "first"), (u128::MAX..=u128::MAX, "last")].into();
    let shown: Vec<_> =
        ends.shortest().iter().map(|(it, value)| (it.network(), it.length(), **value)).collect();
    assert_eq!(shown, [(0, 128, "first"), (u128::MAX, 128, "last")]);
    let all = Prefix::containing(7u32, 0).unwrap();
    assert_eq!(RangeMap::from_prefixes([(all, 1)]).shortest(), [(all, &1)]);
    let all = Prefix::containing(7u128, 0).unwrap();
    assert_eq!(RangeMap::from_prefixes([(all, 1)]).shortest(), [(all, &1)]);
}

/// One hole in the middle of everything takes an entry for each bit, since no entry may hold it.
#[test]
fn a_hole_takes_an_entry_a_bit() {
    let mut map: RangeMap<u128, u8> = [(0..=u128::MAX, 1)].into();
    map.remove(1 << 127..=1 << 127);
    assert_eq!(map.shortest().len(), 128);
}

/// Values apart that are equal count as one; of equal prefixes the last counts.
#[test]
fn equal_values_are_one() {
    let map: RangeMap<u8, String> =
        [(0..=63, "a".to_string()), (64..=127, "b".to_string()), (128..=255, "a".to_string())].into();
    let table = map.shortest();
    let shown: Vec<_> = table.iter().map(|(it, value)| (it.network(), it.length(), value.as_str())).collect();
    assert_eq!(shown, [(0, 0, "a"), (64, 2, "b")]);
    let block = |key: u8, length| Prefix::containing(key, length).unwrap();
    let twice = NumberMap::from_prefixes([(block(8, 5), 1), (block(15, 5), 2)]).unwrap();
    assert_eq!(twice.shortest().unwrap(), [(block(8, 5), 2)]);
    assert_eq!(NumberMap::<u64>::new().unwrap().shortest().unwrap(), []);
}
