/// Makes two modules by which `serde` writes and reads maps and sets.
///
/// This crate has no dependency, so the modules stand in the crate that calls the macro, which names `serde` among its own
/// dependencies. Keys and values are any that `serde` takes. A map is a list of `((start, end), value)`, and a set one of
/// `(start, end)`, each end a `std::ops::Bound`. What is read may be in any order: of ranges that overlap the last one counts.
///
/// ```text
/// btree_range_map_proved::serde_with!(ranges_of_map, ranges_of_set);
///
/// #[derive(Serialize, Deserialize)]
/// struct Rules {
///     #[serde(with = "ranges_of_map")]
///     ports: RangeMap<u16, String>,
///     #[serde(with = "ranges_of_set")]
///     blocked: RangeSet<u32>,
/// }
/// ```
#[macro_export]
macro_rules! serde_with {
    ($map:ident, $set:ident) => {
        /// For `#[serde(with = "..")]` of a `RangeMap`.
        pub(crate) mod $map {
            use ::serde::{Deserialize, Deserializer, Serialize, Serializer};
            use ::std::{ops::Bound, vec::Vec};
            use $crate::{Key, RangeMap};

            /// Writes the stored ranges with their values, in ascending order.
            pub fn serialize<K: Key + Serialize, V: Serialize, S: Serializer>(
                map: &RangeMap<K, V>,
                serializer: S,
            ) -> Result<S::Ok, S::Error> {
                serializer.collect_seq(map.iter().map(|(range, value)| ((range.start, range.end), value)))
            }

            /// Reads what `serialize` writes.
            pub fn deserialize<'de, K, V, D>(deserializer: D) -> Result<RangeMap<K, V>, D::Error>
            where
                K: Key + Deserialize<'de>,
                V: Eq + Deserialize<'de>,
                D: Deserializer<'de>,
            {
                type Ends<K> = (Bound<K>, Bound<K>);
                let ranges = Vec::<(Ends<K>, V)>::deserialize(deserializer)?;
                Ok(ranges.into_iter().collect())
            }
        }

        /// For `#[serde(with = "..")]` of a `RangeSet`.
        pub(crate) mod $set {
            use ::serde::{Deserialize, Deserializer, Serialize, Serializer};
            use ::std::{ops::Bound, vec::Vec};
            use $crate::{Key, RangeSet};

            /// Writes the stored ranges, in ascending order.
            pub fn serialize<K: Key + Serialize, S: Serializer>(
                set: &RangeSet<K>,
                serializer: S,
            ) -> Result<S::Ok, S::Error> {
                serializer.collect_seq(set.iter().map(|range| (range.start, range.end)))
            }

            /// Reads what `serialize` writes.
            pub fn deserialize<'de, K: Key + Deserialize<'de>, D: Deserializer<'de>>(
                deserializer: D,
            ) -> Result<RangeSet<K>, D::Error> {
                let ranges = Vec::<(Bound<K>, Bound<K>)>::deserialize(deserializer)?;
                Ok(ranges.into_iter().collect())
            }
        }
    };
}
