//! What is stored, read in batches from both ends, and what is given, handed on in batches.
use crate::ffi::{
    Calls, Crossing, DONE, END_EXCLUDED, END_UNBOUNDED, Handle, RawBinding, RawHandle, RawRange, ReadsWithin,
    START_EXCLUDED,
};
use crate::range::sealed::Native;
use crate::{InsertedOnly, ffi};

/// How many ranges the first batch has at most. Most callers want few.
const FIRST: usize = 4;

/// How many ranges a batch has at most.
const BATCH: usize = 512;

/// How many ranges the batch after one of so many has at most.
fn size_after(count: usize) -> usize {
    (8 * count).clamp(FIRST, BATCH)
}

/// How many keys or ranges are given in one call of many: as many as a function may well keep on the stack.
const GIVEN: usize = 64;

/// A stored range as it crosses, alone or with a value.
pub trait Stored<N>: Copy + Default {
    fn range(&self) -> &RawRange<N>;
}

impl<N: Copy + Default> Stored<N> for RawRange<N> {
    fn range(&self) -> &RawRange<N> {
        self
    }
}

impl<N: Copy + Default> Stored<N> for ffi::RawEntry<N> {
    fn range(&self) -> &RawRange<N> {
        &self.range
    }
}

impl<N: Copy + Default> Stored<N> for ffi::RawPiece<N> {
    fn range(&self) -> &RawRange<N> {
        &self.range
    }
}

/// The ranges of one collection that are left: they are shown in order from either end.
#[derive(Clone)]
pub struct Batches<'a, N: Crossing, E: 'static> {
    handle: &'a Handle,
    calls: &'static Calls<N, E>,
    front: End<N, E>,
    back: End<N, E>,
    /// How many are left beside those that the front has read.
    later: usize,
}

/// What was read at one end and is not shown yet. What the front has read the back may show too, and takes it away then.
#[derive(Clone)]
struct End<N, E> {
    read: Vec<E>,
    shown: usize,
    /// The key from which the next batch is read.
    next: N,
    /// Whether the range that was read last holds that key, and so is read again.
    is_again: bool,
}

type Reads<N, E> =
    unsafe extern "C" fn(*const RawHandle, <N as Crossing>::Alone, *mut E, usize, &mut usize) -> u32;

impl<N: Crossing, E: Stored<N>> End<N, E> {
    fn new(next: N) -> Self {
        End { read: Vec::new(), shown: 0, next, is_again: false }
    }

    /// Reads the next batch, of `left` ranges that are left; `bound` is that end of a range which the batch after it goes on
    /// from, and whether the range holds it.
    #[cold]
    fn refill(
        &mut self,
        handle: &Handle,
        reads: Reads<N, E>,
        left: usize,
        bound: impl Fn(&RawRange<N>) -> (N, bool),
    ) {
        let again = usize::from(self.is_again);
        self.read.resize((left + again).min(size_after(self.read.len())), E::default());
        let mut count = 0;
        // SAFETY: the buffer is as many ranges as is said, initialised, and the handle is not written while it is borrowed
        unsafe { reads(handle.get(), self.next.alone(), self.read.as_mut_ptr(), self.read.len(), &mut count) };
        self.read.truncate(count);
        self.shown = again;
        (self.next, self.is_again) = bound(self.read[count - 1].range());
    }
}

impl<'a, N: Crossing, E: Stored<N>> Batches<'a, N, E> {
    /// All ranges of the collection, whose least and greatest keys are the ends.
    pub fn new(handle: &'a Handle, calls: &'static Calls<N, E>, ends: (N, N)) -> Self {
        let (least, greatest) = ends;
        Batches { handle, calls, front: End::new(least), back: End::new(greatest), later: handle.count() }
    }

    pub fn left(&self) -> usize {
        self.later + self.front.read.len() - self.front.shown
    }

    /// Reads the next batch at the front, where more is left.
    fn read_on(&mut self) -> bool {
        if self.later == 0 {
            return false;
        }
        self.front.refill(self.handle, self.calls.read, self.later, |range| {
            (range.end, range.flags & END_EXCLUDED == 0)
        });
        self.later -= self.front.read.len() - self.front.shown;
        true
    }

    #[inline]
    pub fn next(&mut self) -> Option<E> {
        loop {
            if let Some(shown) = self.front.read.get(self.front.shown) {
                self.front.shown += 1;
                return Some(*shown);
            }
            if !self.read_on() {
                return None;
            }
        }
    }

    #[inline]
    pub fn fold<T>(mut self, mut made: T, mut call: impl FnMut(T, E) -> T) -> T {
        loop {
            let batch = &self.front.read[self.front.shown..];
            made = batch.iter().fold(made, |made, entry| call(made, *entry));
            if !self.read_on() {
                return made;
            }
        }
    }

    #[inline]
    pub fn next_back(&mut self) -> Option<E> {
        // the last of those that are left, whether the front has read it or not
        if self.later > 0 {
            self.later -= 1;
        } else if self.front.read.len() > self.front.shown {
            self.front.read.pop();
        } else {
            return None;
        }
        if self.back.shown == self.back.read.len() {
            let left = self.left() + 1;
            self.back.refill(self.handle, self.calls.read_back, left, |range| {
                (range.start, range.flags & START_EXCLUDED == 0)
            });
        }
        self.back.shown += 1;
        Some(self.back.read[self.back.shown - 1])
    }
}

/// What a call finds in a range of one collection, in ascending order.
#[derive(Clone)]
pub struct Within<'a, N, E> {
    handle: &'a Handle,
    reads: ReadsWithin<N, E>,
    /// What is left of the range where more may be found in it.
    range: Option<RawRange<N>>,
    read: Vec<E>,
    shown: usize,
}

impl<'a, N: Copy, E: Stored<N>> Within<'a, N, E> {
    pub fn new(handle: &'a Handle, reads: ReadsWithin<N, E>, range: RawRange<N>) -> Self {
        Within { handle, reads, range: Some(range), read: Vec::new(), shown: 0 }
    }

    #[inline]
    pub fn next(&mut self) -> Option<E> {
        if self.shown == self.read.len() {
            self.refill()?;
        }
        let shown = self.read.get(self.shown).copied();
        self.shown += usize::from(shown.is_some());
        shown
    }

    /// Reads the next batch, if the range may have more.
    #[cold]
    fn refill(&mut self) -> Option<()> {
        let range = self.range.take()?;
        let capacity = size_after(self.read.len());
        self.read.resize(capacity, E::default());
        let mut count = 0;
        // SAFETY: the buffer is as many ranges as is said, initialised, and the handle is not written while it is borrowed
        unsafe { (self.reads)(self.handle.get(), &range, self.read.as_mut_ptr(), capacity, &mut count) };
        self.read.truncate(count);
        self.shown = 0;
        if count == capacity {
            self.range = rest_past(range, self.read[count - 1].range());
        }
        Some(())
    }
}

/// The part of the range past another, where there is one.
fn rest_past<N: Copy>(range: RawRange<N>, shown: &RawRange<N>) -> Option<RawRange<N>> {
    if shown.flags & END_UNBOUNDED != 0 {
        return None;
    }
    let start_flag = if shown.flags & END_EXCLUDED != 0 { 0 } else { START_EXCLUDED };
    let flags = range.flags & (END_EXCLUDED | END_UNBOUNDED) | start_flag;
    Some(RawRange { start: shown.end, flags, ..range })
}

/// Hands the items on to the call in batches, which says how many of a batch it has done. To an empty collection all that
/// the iterator is sure to give come first, at once: what is in order is stored with no search then.
pub fn hand_on<E: Copy + Default>(
    mut items: impl Iterator<Item = E>,
    is_empty: bool,
    mut call: impl FnMut(*const E, usize, &mut usize) -> u32,
) -> Result<(), InsertedOnly> {
    let mut done = 0;
    let mut hand = |batch: &[E]| {
        let mut count = 0;
        let status = call(batch.as_ptr(), batch.len(), &mut count);
        done += count;
        if status == DONE { Ok(()) } else { Err(InsertedOnly(done)) }
    };
    if is_empty {
        hand(&sure_ones(&mut items))?;
    }
    let mut batch = [E::default(); GIVEN];
    loop {
        let size = filled(&mut batch, &mut items);
        hand(&batch[..size])?;
        if size < GIVEN {
            return Ok(());
        }
    }
}

/// The next items that the iterator is sure to give, or none where they are few or there is no memory for them.
fn sure_ones<E>(items: &mut impl Iterator<Item = E>) -> Vec<E> {
    let (least, _) = items.size_hint();
    let mut sure = Vec::new();
    if least > GIVEN && sure.try_reserve_exact(least).is_ok() {
        sure.extend(items.take(least));
    }
    sure
}

/// Writes the next items to the front of the batch, and returns how many there are.
fn filled<E>(batch: &mut [E], items: &mut impl Iterator<Item = E>) -> usize {
    batch.iter_mut().zip(items).map(|(slot, item)| *slot = item).count()
}

/// What each key of an iterator is bound to in one map, looked up in batches.
pub struct Bindings<'a, N, I> {
    handle: &'a Handle,
    keys: I,
    found: [RawBinding; GIVEN],
    size: usize,
    shown: usize,
    numbers: [N; GIVEN],
}

impl<'a, N: Native, I: Iterator<Item = N>> Bindings<'a, N, I> {
    pub fn new(handle: &'a Handle, keys: I) -> Self {
        let (found, numbers) = ([RawBinding::default(); GIVEN], [N::default(); GIVEN]);
        Bindings { handle, keys, found, size: 0, shown: 0, numbers }
    }
}

impl<N: Native, I: Iterator<Item = N>> Iterator for Bindings<'_, N, I> {
    type Item = Option<u64>;

    fn next(&mut self) -> Option<Option<u64>> {
        if self.shown == self.size {
            self.size = filled(&mut self.numbers, &mut self.keys);
            self.shown = 0;
            N::bindings(self.handle, &self.numbers[..self.size], &mut self.found[..self.size]);
        }
        let found = self.found[..self.size].get(self.shown)?;
        self.shown += 1;
        Some(found.value())
    }
}
