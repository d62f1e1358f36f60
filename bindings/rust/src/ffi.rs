//! The functions of `btree_range_map.h`, and a handle that is destroyed once.
use crate::{NoMemory, NotInserted, NotLoaded};
use std::ffi::c_void;

pub const DONE: u32 = 0;
const CONNECTED: u32 = 4;
pub const NO_ROOM: u32 = 7;
const NOT_JSON: u32 = 8;
const NOT_READ: u32 = 9;
const OCCUPIED: u32 = 10;
const OUT_OF_ORDER: u32 = 11;
pub const BAD_RULE: u32 = 12;
pub const TOO_LARGE: u32 = 13;

/// The reason of a rule whose pattern is none.
pub const SYNTAX: u32 = 1;

pub const START_EXCLUDED: u32 = 1;
pub const START_UNBOUNDED: u32 = 2;
pub const END_EXCLUDED: u32 = 4;
pub const END_UNBOUNDED: u32 = 8;

#[repr(C)]
pub struct RawHandle {
    is_open: bool,
    at: *mut c_void,
}

/// A key as it lies in ranges and in arrays, and how it crosses alone: as it is, or by a pointer where it is wider than a word.
pub trait Crossing: Copy + Default + Ord + 'static {
    type Alone: Copy;

    fn alone(&self) -> Self::Alone;
}

impl Crossing for u64 {
    type Alone = u64;

    fn alone(&self) -> u64 {
        *self
    }
}

impl Crossing for i64 {
    type Alone = i64;

    fn alone(&self) -> i64 {
        *self
    }
}

/// A key of 128 bits, which the header aligns as a word.
#[repr(C, packed(8))]
#[derive(Clone, Copy, Default, PartialEq, Eq, PartialOrd, Ord)]
pub struct Wide(pub u128);

impl Crossing for Wide {
    type Alone = *const Wide;

    fn alone(&self) -> *const Wide {
        self
    }
}

impl From<Wide> for u128 {
    fn from(key: Wide) -> u128 {
        key.0
    }
}

#[repr(C)]
#[derive(Clone, Copy, Default)]
pub struct RawRange<K> {
    pub start: K,
    pub end: K,
    pub flags: u32,
}

#[repr(C)]
#[derive(Clone, Copy, Default)]
pub struct RawEntry<K> {
    pub range: RawRange<K>,
    pub value: u64,
}

/// What a key is bound to.
#[repr(C)]
#[derive(Clone, Copy, Default)]
pub struct RawBinding {
    value: u64,
    is_bound: bool,
}

impl RawBinding {
    pub fn of(value: Option<u64>) -> RawBinding {
        RawBinding { value: value.unwrap_or(0), is_bound: value.is_some() }
    }

    pub fn value(&self) -> Option<u64> {
        self.is_bound.then_some(self.value)
    }
}

/// A part of a range, with what it is bound to.
#[repr(C)]
#[derive(Clone, Copy, Default)]
pub struct RawPiece<K> {
    pub range: RawRange<K>,
    pub binding: RawBinding,
}

/// A prefix of keys of 128 bits, with their value.
#[repr(C)]
#[derive(Clone, Copy, Default)]
pub struct RawPrefix {
    pub network: Wide,
    pub value: u64,
    pub length: u32,
}

/// A rule of a lexer.
#[repr(C)]
pub struct RawRule {
    pub name: *const u8,
    pub name_size: usize,
    pub pattern: *const u8,
    pub pattern_size: usize,
    pub is_skipped: bool,
}

/// The first rule that is not taken, and why.
#[repr(C)]
#[derive(Default)]
pub struct RawFault {
    pub rule: usize,
    pub start: usize,
    pub end: usize,
    pub text_size: usize,
    pub reason: u32,
}

/// A token, or the place where none begins.
#[repr(C)]
#[derive(Clone, Copy, Debug, Default)]
pub struct RawToken {
    pub start: usize,
    pub end: usize,
    pub line: usize,
    pub column: usize,
    pub rule: u32,
    pub is_token: bool,
}

/// A call that writes to an array what it finds in a range.
pub type ReadsWithin<K, E> =
    unsafe extern "C" fn(*const RawHandle, &RawRange<K>, *mut E, usize, &mut usize) -> u32;

/// Hands the list of the calls that each kind of collection has to a macro, after its own words: keys are `K`, those that
/// cross alone `K::Alone`, and ranges with what they are bound to `E`.
macro_rules! calls_on_each {
    ($then:ident $words:tt) => {
        $then! { $words
            create(made: *mut RawHandle);
            remove(handle: *mut RawHandle, range: &RawRange<K>);
            get(handle: *const RawHandle, key: <K as Crossing>::Alone, entry: &mut E);
            contains(handle: *const RawHandle, key: <K as Crossing>::Alone);
            intersects(handle: *const RawHandle, range: &RawRange<K>);
            first(handle: *const RawHandle, entry: &mut E);
            last(handle: *const RawHandle, entry: &mut E);
            next(handle: *const RawHandle, key: <K as Crossing>::Alone, entry: &mut E);
            previous(handle: *const RawHandle, key: <K as Crossing>::Alone, entry: &mut E);
            pop_first(handle: *mut RawHandle, entry: &mut E);
            pop_last(handle: *mut RawHandle, entry: &mut E);
            read(handle: *const RawHandle, from: <K as Crossing>::Alone, to: *mut E, size: usize, count: &mut usize);
            read_back(handle: *const RawHandle, upto: <K as Crossing>::Alone, to: *mut E, size: usize, count: &mut usize);
            overlapping(at: *const RawHandle, range: &RawRange<K>,
                to: *mut E, size: usize, count: &mut usize);
            gaps(at: *const RawHandle, range: &RawRange<K>,
                to: *mut RawRange<K>, size: usize, count: &mut usize);
        }
    };
}

/// The same of the calls that maps have beside those. Some stand under a name of their own in the header.
macro_rules! calls_on_maps {
    ($then:ident $words:tt) => {
        $then! { $words
            insert(map: *mut RawHandle, range: &RawRange<K>, value: u64);
            insert_disconnected(map: *mut RawHandle, range: &RawRange<K>, value: u64);
            try_insert(map: *mut RawHandle, range: &RawRange<K>, value: u64);
            insert_many(map: *mut RawHandle, from: *const E, size: usize, count: &mut usize);
            pieces(map: *const RawHandle, range: &RawRange<K>,
                to: *mut RawPiece<K>, size: usize, count: &mut usize);
            "raw_" split_off(map: *mut RawHandle, key: <K as Crossing>::Alone, other: *mut RawHandle);
            "raw_" append(map: *mut RawHandle, other: *mut RawHandle);
        }
    };
}

/// The same of the calls that sets have beside those.
macro_rules! calls_on_sets {
    ($then:ident $words:tt) => {
        $then! { $words
            insert(set: *mut RawHandle, range: &RawRange<K>);
            try_insert(set: *mut RawHandle, range: &RawRange<K>);
            insert_many(set: *mut RawHandle, from: *const E, size: usize, count: &mut usize);
        }
    };
}

/// The struct of such calls.
macro_rules! table {
    ([$table:ident, $doc:literal] $($($raw:literal)? $call:ident($($name:ident: $type:ty),*);)*) => {
        #[doc = $doc]
        pub struct $table<K: Crossing, E> {
            $(pub $call: unsafe extern "C" fn($($type),*) -> u32,)*
        }
    };
}

/// A module that declares such calls of one kind, and has them as a static.
macro_rules! declare {
    (
        [$module:ident, $table:ident, $static:ident, $kind:literal, $key:ty, $entry:ty]
        $($($raw:literal)? $call:ident($($name:ident: $type:ty),*);)*
    ) => {
        pub mod $module {
            use super::*;

            type K = $key;
            type E = $entry;

            unsafe extern "C" {
                $(
                    #[link_name = concat!("brm_", $($raw,)? $kind, stringify!($call))]
                    fn $call($($name: $type),*) -> u32;
                )*
            }

            pub static $static: $table<K, E> = $table { $($call,)* };
        }
    };
}

calls_on_each!(table[Calls, "The calls of one kind of collection."]);
calls_on_each!(declare[unsigned, Calls, CALLS, "map_u64_", u64, RawEntry<u64>]);
calls_on_each!(declare[signed, Calls, CALLS, "map_i64_", i64, RawEntry<i64>]);
calls_on_each!(declare[wide, Calls, CALLS, "map_u128_", Wide, RawEntry<Wide>]);
calls_on_each!(declare[set, Calls, CALLS, "set_u64_", u64, RawRange<u64>]);
calls_on_each!(declare[wide_set, Calls, CALLS, "set_u128_", Wide, RawRange<Wide>]);
calls_on_maps!(table[Binds, "The calls on maps, beside those on sets too."]);
calls_on_maps!(declare[unsigned_binds, Binds, BINDS, "map_u64_", u64, RawEntry<u64>]);
calls_on_maps!(declare[signed_binds, Binds, BINDS, "map_i64_", i64, RawEntry<i64>]);
calls_on_maps!(declare[wide_binds, Binds, BINDS, "map_u128_", Wide, RawEntry<Wide>]);
calls_on_sets!(table[Adds, "The calls on sets, beside those on maps too."]);
calls_on_sets!(declare[set_adds, Adds, ADDS, "set_u64_", u64, RawRange<u64>]);
calls_on_sets!(declare[wide_set_adds, Adds, ADDS, "set_u128_", Wide, RawRange<Wide>]);

/// A call that opens the last handle on a collection made of the first two.
pub type OfTwo = unsafe extern "C" fn(*const RawHandle, *const RawHandle, *mut RawHandle) -> u32;

/// A call that answers a question of two handles.
pub type Asks = unsafe extern "C" fn(*const RawHandle, *const RawHandle) -> u32;

unsafe extern "C" {
    pub fn brm_raw_destroy(handle: *mut RawHandle);
    pub fn brm_raw_clone(handle: *const RawHandle, made: *mut RawHandle) -> u32;
    pub fn brm_raw_equal(handle: *const RawHandle, other: *const RawHandle) -> u32;
    pub fn brm_clear(handle: *mut RawHandle) -> u32;
    pub fn brm_count(handle: *const RawHandle) -> usize;
    pub fn brm_save(handle: *const RawHandle, buffer: *mut u8, capacity: usize, size: &mut usize) -> u32;
    pub fn brm_load(handle: *mut RawHandle, text: *const u8, size: usize) -> u32;
    pub fn brm_raw_map_u64_get_many(
        map: *const RawHandle,
        keys: *const u64,
        size: usize,
        to: *mut RawBinding,
        room: usize,
    ) -> u32;
    pub fn brm_raw_map_i64_get_many(
        map: *const RawHandle,
        keys: *const i64,
        size: usize,
        to: *mut RawBinding,
        room: usize,
    ) -> u32;
    pub fn brm_map_u128_shortest(
        map: *const RawHandle,
        to: *mut RawPrefix,
        capacity: usize,
        count: &mut usize,
    ) -> u32;
    pub fn brm_map_u128_from_prefixes(made: *mut RawHandle, from: *const RawPrefix, size: usize) -> u32;
    pub fn brm_raw_overlay(map: *const RawHandle, other: *const RawHandle, made: *mut RawHandle) -> u32;
    pub fn brm_raw_restrict(map: *const RawHandle, keys: *const RawHandle, made: *mut RawHandle) -> u32;
    pub fn brm_raw_without(map: *const RawHandle, keys: *const RawHandle, made: *mut RawHandle) -> u32;
    pub fn brm_raw_set_union(set: *const RawHandle, other: *const RawHandle, made: *mut RawHandle) -> u32;
    pub fn brm_raw_set_intersection(
        set: *const RawHandle,
        other: *const RawHandle,
        made: *mut RawHandle,
    ) -> u32;
    pub fn brm_raw_set_difference(
        set: *const RawHandle,
        other: *const RawHandle,
        made: *mut RawHandle,
    ) -> u32;
    pub fn brm_raw_set_symmetric_difference(
        set: *const RawHandle,
        other: *const RawHandle,
        made: *mut RawHandle,
    ) -> u32;
    pub fn brm_raw_set_complement(set: *const RawHandle, made: *mut RawHandle) -> u32;
    pub fn brm_lexer_create(
        lexer: *mut RawHandle,
        rules: *const RawRule,
        size: usize,
        budget: u32,
        fault: &mut RawFault,
        text: *mut u8,
        capacity: usize,
    ) -> u32;
    pub fn brm_lexer_tokens(
        lexer: *const RawHandle,
        text: *const u8,
        size: usize,
        to: *mut RawToken,
        capacity: usize,
        count: &mut usize,
    ) -> u32;
    pub fn brm_raw_set_is_subset(set: *const RawHandle, other: *const RawHandle) -> u32;
    pub fn brm_raw_set_is_disjoint(set: *const RawHandle, other: *const RawHandle) -> u32;
}

/// `Ok` of a status that says that the call is done.
pub fn done(status: u32) -> Result<(), NoMemory> {
    if status == DONE { Ok(()) } else { Err(NoMemory) }
}

/// The same of a call that what is stored may be in the way of.
pub fn inserted(status: u32) -> Result<(), NotInserted> {
    match status {
        DONE => Ok(()),
        CONNECTED => Err(NotInserted::Connected),
        OCCUPIED => Err(NotInserted::Occupied),
        OUT_OF_ORDER => Err(NotInserted::OutOfOrder),
        _ => Err(NotInserted::NoMemory),
    }
}

/// A handle that no one else has. A call that reads writes nothing to it.
pub struct Handle(RawHandle);

// SAFETY: what a handle leads to is its own, and the library keeps no state beside it, so it may move to another thread.
// A call through `&Handle` writes nothing that another such call reads; `bindings/c/threads.c` shows it under helgrind.
unsafe impl Send for Handle {}
unsafe impl Sync for Handle {}

// SAFETY, of each call below: a handle is closed, or what a call made of it, and none that is written is in another call, by
// the references to it. Two handles of one call are not one: `made` is new, and `answers` compares the two. Buffers are as
// many bytes as is said, initialised, and not null, even where they are empty.
impl Handle {
    pub fn closed() -> Handle {
        Handle(RawHandle { is_open: false, at: std::ptr::null_mut() })
    }

    /// A handle that `open` opens.
    pub fn opened(open: impl FnOnce(*mut RawHandle) -> u32) -> Result<Handle, NoMemory> {
        let mut handle = Handle::closed();
        done(open(&mut handle.0))?;
        Ok(handle)
    }

    pub fn get(&self) -> *const RawHandle {
        &self.0
    }

    pub fn get_mut(&mut self) -> *mut RawHandle {
        &mut self.0
    }

    pub fn count(&self) -> usize {
        unsafe { brm_count(self.get()) }
    }

    pub fn clear(&mut self) {
        unsafe { brm_clear(self.get_mut()) };
    }

    pub fn copied(&self) -> Result<Handle, NoMemory> {
        Handle::opened(|made| unsafe { brm_raw_clone(self.get(), made) })
    }

    pub fn equals(&self, other: &Handle) -> bool {
        self.answers(other, brm_raw_equal, true)
    }

    /// What a question of this handle and the other is answered, or of it alone where they are one.
    pub fn answers(&self, other: &Handle, asks: Asks, alone: bool) -> bool {
        if std::ptr::eq(self, other) { alone } else { unsafe { asks(self.get(), other.get()) == DONE } }
    }

    pub fn to_json(&self) -> Result<String, NoMemory> {
        let mut text = Vec::new();
        loop {
            let mut size = 0;
            match unsafe { brm_save(self.get(), text.as_mut_ptr(), text.len(), &mut size) } {
                DONE => return String::from_utf8(text).map_err(|_| unreachable!("JSON text is UTF-8")),
                NO_ROOM => {
                    text.try_reserve_exact(size - text.len()).map_err(|_| NoMemory)?;
                    text.resize(size, 0);
                }
                _ => return Err(NoMemory),
            }
        }
    }

    pub fn load_json(&mut self, text: &str) -> Result<(), NotLoaded> {
        match unsafe { brm_load(self.get_mut(), text.as_ptr(), text.len()) } {
            DONE => Ok(()),
            NOT_JSON => Err(NotLoaded::NotJson),
            NOT_READ => Err(NotLoaded::NotRead),
            _ => Err(NotLoaded::NoMemory),
        }
    }
}

impl Drop for Handle {
    fn drop(&mut self) {
        unsafe { brm_raw_destroy(self.get_mut()) }
    }
}
