//! Maps and sets whose keys are gathered into ranges, and lexers. The code behind them is proved in Rattle, and is linked as a
//! static library.
//!
//! ```
//! use btree_range_map_proved::RangeMap;
//!
//! let mut ports: RangeMap<u16, &str> = RangeMap::new();
//! ports.insert(0..1024, "system");
//! ports.insert(80..=80, "web");
//! assert_eq!(ports.get(80), Some(&"web"));
//! assert_eq!(ports.len(), 3);
//! for (range, owner) in &ports {
//!     println!("{range:?}: {owner}");
//! }
//! ```
//!
//! [`RangeMap`] has values of any type that is `Eq`, [`RangeSet`] has keys alone, and [`NumberMap`] is the
//! proved map as it is, with numbers as values, calls that answer by an error where memory runs out, and JSON.
//! [`Lexer`] cuts texts into tokens by rules. [`serde_with!`] makes what `serde` needs. The crate needs std, and no other crate.
#![warn(missing_docs)]

mod batches;
mod ffi;
mod lexer;
mod map;
mod numbers;
mod prefixes;
mod range;
mod serde;
mod set;
mod values;

pub use lexer::{Lexer, NoToken, NotBuilt, Rule, Token, Tokens};
pub use map::{IntoIter as MapIntoIter, Iter as MapIter, RangeMap};
pub use numbers::{
    Gaps as NumberGaps, Iter as NumberIter, NumberMap, Overlapping as NumberOverlapping,
    Pieces as NumberPieces,
};
pub use prefixes::{Address, Prefix};
pub use range::{Key, Range};
pub use set::{Iter as SetIter, RangeSet};

use std::fmt;

/// There was not enough memory, and nothing was changed.
#[derive(Clone, Copy, Debug, PartialEq, Eq)]
pub struct NoMemory;

impl fmt::Display for NoMemory {
    fn fmt(&self, f: &mut fmt::Formatter<'_>) -> fmt::Result {
        f.write_str("out of memory")
    }
}

impl std::error::Error for NoMemory {}

/// There was not enough memory for a range: so many ranges before it were inserted, and no other.
#[derive(Clone, Copy, Debug, PartialEq, Eq)]
pub struct InsertedOnly(pub usize);

impl fmt::Display for InsertedOnly {
    fn fmt(&self, f: &mut fmt::Formatter<'_>) -> fmt::Result {
        write!(f, "out of memory after {} ranges", self.0)
    }
}

impl std::error::Error for InsertedOnly {}

/// Why a text was not loaded. Nothing was changed.
#[derive(Clone, Copy, Debug, PartialEq, Eq)]
pub enum NotLoaded {
    /// The text is no JSON.
    NotJson,
    /// The JSON is no such map.
    NotRead,
    /// There was not enough memory.
    NoMemory,
}

impl fmt::Display for NotLoaded {
    fn fmt(&self, f: &mut fmt::Formatter<'_>) -> fmt::Result {
        f.write_str(match self {
            NotLoaded::NotJson => "the text is no JSON",
            NotLoaded::NotRead => "the JSON is no such map",
            NotLoaded::NoMemory => "out of memory",
        })
    }
}

impl std::error::Error for NotLoaded {}

/// Why ranges were not inserted. Nothing was changed.
#[derive(Clone, Copy, Debug, PartialEq, Eq)]
pub enum NotInserted {
    /// The range meets or touches a stored one.
    Connected,
    /// The range meets a stored one, where it may touch some.
    Occupied,
    /// Some range does not lie after all others.
    OutOfOrder,
    /// There was not enough memory.
    NoMemory,
}

impl fmt::Display for NotInserted {
    fn fmt(&self, f: &mut fmt::Formatter<'_>) -> fmt::Result {
        f.write_str(match self {
            NotInserted::Connected => "the range meets or touches a stored one",
            NotInserted::Occupied => "the range meets a stored one",
            NotInserted::OutOfOrder => "some range does not lie after all others",
            NotInserted::NoMemory => "out of memory",
        })
    }
}

impl std::error::Error for NotInserted {}
