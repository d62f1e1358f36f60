//! Maps as tables of prefixes, of which the longest counts: for routers, and for what looks addresses up as they do.
use crate::ffi::{self, Handle, RawPrefix, Wide};
use crate::map::RangeMap;
use crate::numbers::NumberMap;
use crate::range::{Key, Range};
use crate::{InsertedOnly, NoMemory};

/// A type of keys that are divided into prefixes: an unsigned integer, such as the `u32` of an IPv4 address and the `u128` of
/// an IPv6 address.
pub trait Address: Key + Into<u128> + TryFrom<u128> {
    /// How many bits a key has.
    const BITS: u8;
}

macro_rules! addresses {
    ($($key:ty),*) => {$(
        impl Address for $key {
            const BITS: u8 = <$key>::BITS as u8;
        }
    )*};
}

addresses!(u8, u16, u32, u64, u128);

/// How many bits a key has in the library.
const WIDE_BITS: u8 = 128;

const NO_MEMORY: &str = "out of memory";

/// The greatest number of so many bits.
fn greatest_of(bits: u8) -> u128 {
    u128::MAX.checked_shr(u32::from(WIDE_BITS - bits)).unwrap_or(0)
}

/// The key of a number that has no more bits.
fn narrow<K: Address>(number: u128) -> K {
    K::try_from(number).unwrap_or_else(|_| unreachable!("a number of a key's bits"))
}

/// The keys that begin with the same bits, so many of them.
///
/// ```
/// use btree_range_map_proved::Prefix;
/// use std::net::Ipv4Addr;
///
/// let address = u32::from(Ipv4Addr::new(10, 1, 2, 3));
/// let prefix = Prefix::containing(address, 8).unwrap();
/// assert_eq!(prefix.network(), u32::from(Ipv4Addr::new(10, 0, 0, 0)));
/// assert_eq!(prefix.range().len(), 1 << 24);
/// assert_eq!(Prefix::containing(address, 33), None);
/// ```
#[derive(Clone, Copy, Debug, PartialEq, Eq, PartialOrd, Ord, Hash)]
pub struct Prefix<K> {
    network: K,
    length: u8,
}

impl<K: Address> Prefix<K> {
    /// The prefix of so many bits that holds the key, or `None` where a key has fewer.
    pub fn containing(key: K, length: u8) -> Option<Prefix<K>> {
        let free = K::BITS.checked_sub(length)?;
        Some(Prefix { network: narrow(key.into() & !greatest_of(free)), length })
    }

    /// The first of its keys.
    pub fn network(&self) -> K {
        self.network
    }

    /// How many bits are the same in all its keys.
    pub fn length(&self) -> u8 {
        self.length
    }

    /// Its keys.
    pub fn range(&self) -> Range<K> {
        let last = self.network.into() | greatest_of(K::BITS - self.length);
        Range::through((self.network, narrow(last)))
    }

    /// As it crosses: keys of fewer bits are the last ones of 128.
    fn raw(&self, value: u64) -> RawPrefix {
        let length = u32::from(self.length + (WIDE_BITS - K::BITS));
        RawPrefix { network: Wide(self.network.into()), value, length }
    }

    /// What crossed. No prefix of a map has keys that the map does not bind, so its first bits are those of all its keys.
    fn of(raw: &RawPrefix) -> (Prefix<K>, u64) {
        let length = raw.length as u8 - (WIDE_BITS - K::BITS);
        (Prefix { network: narrow(raw.network.0), length }, raw.value)
    }
}

/// A map of the same ranges, over keys of other bits.
fn with_keys<K: Key, L: Key>(
    ranges: impl Iterator<Item = (Range<K>, u64)>,
    key: impl Fn(K) -> L,
) -> Result<NumberMap<L>, NoMemory> {
    let mut made = NumberMap::new()?;
    let through = |(range, number): (Range<K>, u64)| {
        let (first, last) = range.ends()?;
        Some((key(first)..=key(last), number))
    };
    made.insert_many(ranges.filter_map(through)).map_err(|InsertedOnly(_)| NoMemory)?;
    Ok(made)
}

/// The shortest table of a map of keys of 128 bits.
fn shortest_raw(map: &Handle, room: usize) -> Result<Vec<RawPrefix>, NoMemory> {
    let mut found: Vec<RawPrefix> = Vec::new();
    let mut count = room;
    loop {
        found.try_reserve_exact(count).map_err(|_| NoMemory)?;
        found.resize(count, RawPrefix::default());
        // SAFETY: the array is as long as is said, and initialised; nothing writes the handle while it is borrowed
        let status =
            unsafe { ffi::brm_map_u128_shortest(map.get(), found.as_mut_ptr(), found.len(), &mut count) };
        match status {
            ffi::DONE => break,
            ffi::NO_ROOM => {}
            _ => return Err(NoMemory),
        }
    }
    found.truncate(count);
    Ok(found)
}

/// The shortest table of some ranges that ascend.
fn shortest<K: Address>(
    ranges: impl Iterator<Item = (Range<K>, u64)>,
) -> Result<Vec<(Prefix<K>, u64)>, NoMemory> {
    let wide: NumberMap<u128> = with_keys(ranges, K::into)?;
    let found = shortest_raw(&wide.handle, wide.len())?;
    Ok(found.iter().map(Prefix::of).collect())
}

impl<K: Address> NumberMap<K> {
    /// The shortest table of prefixes of the map, as [`RangeMap::shortest`].
    pub fn shortest(&self) -> Result<Vec<(Prefix<K>, u64)>, NoMemory> {
        shortest(self.iter())
    }

    /// The map of prefixes in any order, as [`RangeMap::from_prefixes`].
    pub fn from_prefixes(
        prefixes: impl IntoIterator<Item = (Prefix<K>, u64)>,
    ) -> Result<NumberMap<K>, NoMemory> {
        let raw: Vec<_> = prefixes.into_iter().map(|(prefix, number)| prefix.raw(number)).collect();
        // SAFETY: the array is as long as is said, and the handle is new
        let wide: NumberMap<u128> =
            Handle::opened(|made| unsafe { ffi::brm_map_u128_from_prefixes(made, raw.as_ptr(), raw.len()) })?
                .into();
        with_keys(wide.iter(), narrow)
    }
}

impl<K: Address, V: Eq> RangeMap<K, V> {
    /// The shortest table of prefixes with values that the map is, ascending by their networks: the longest prefix that holds a
    /// key has its value, and none holds a key that is not bound. No such table is shorter.
    /// Both are proved of the call in C; that a map is copied into keys of 128 bits is tested.
    ///
    /// Each value is compared with each different one. It needs memory for a copy of the ranges.
    ///
    /// ```
    /// use btree_range_map_proved::{Prefix, RangeMap};
    ///
    /// let mut hops: RangeMap<u32, &str> = [(0x0a000000..=0x0affffff, "north")].into();
    /// hops.insert(0x0a010000..=0x0a01ffff, "south");
    /// let table = hops.shortest();
    /// let shown: Vec<_> = table.iter().map(|(it, hop)| (it.network(), it.length(), **hop)).collect();
    /// assert_eq!(shown, [(0x0a000000, 8, "north"), (0x0a010000, 16, "south")]);
    /// assert_eq!(RangeMap::from_prefixes(table.iter().map(|(it, hop)| (*it, **hop))), hops);
    /// ```
    pub fn shortest(&self) -> Vec<(Prefix<K>, &V)> {
        let mut values: Vec<&V> = Vec::new();
        let mut number = |value| place_of(&mut values, value);
        let numbered = self.iter().map(|(range, value)| (range, number(value)));
        let found = shortest(numbered).expect(NO_MEMORY);
        found.into_iter().map(|(prefix, number)| (prefix, values[number as usize])).collect()
    }

    /// The map of prefixes in any order: each key is bound to the value of the longest prefix that holds it, of equal
    /// prefixes the last.
    ///
    /// ```
    /// use btree_range_map_proved::{Prefix, RangeMap};
    ///
    /// let block = |key: u8, length| Prefix::containing(key, length).unwrap();
    /// let map = RangeMap::from_prefixes([(block(6, 7), "long"), (block(0, 4), "short")]);
    /// assert_eq!(map, [(0..6, "short"), (6..8, "long"), (8..16, "short")].into());
    /// ```
    pub fn from_prefixes(prefixes: impl IntoIterator<Item = (Prefix<K>, V)>) -> RangeMap<K, V>
    where
        V: Clone,
    {
        let mut values: Vec<V> = Vec::new();
        let numbered = prefixes.into_iter().map(|(prefix, value)| {
            values.push(value);
            (prefix, values.len() as u64 - 1)
        });
        let numbers = NumberMap::from_prefixes(numbered.collect::<Vec<_>>()).expect(NO_MEMORY);
        numbers.iter().map(|(range, number)| (range, values[number as usize].clone())).collect()
    }
}

/// The place of the first of the values that equals this one, which is added where there is none.
fn place_of<'a, V: Eq>(values: &mut Vec<&'a V>, value: &'a V) -> u64 {
    let known = values.iter().position(|it| *it == value);
    known.unwrap_or_else(|| {
        values.push(value);
        values.len() - 1
    }) as u64
}
