//! Values by numbers, each kept as long as some stored range has its number.

/// The values of a map, and how many stored ranges have each.
#[derive(Clone)]
pub struct Values<V> {
    slots: Vec<Slot<V>>,
    /// The free slot that is taken next, where there is one.
    free: Option<usize>,
    kept: usize,
}

#[derive(Clone)]
enum Slot<V> {
    Kept { value: V, ranges: usize },
    Free { next: Option<usize> },
}

impl<V> Values<V> {
    pub fn new() -> Values<V> {
        Values { slots: Vec::new(), free: None, kept: 0 }
    }

    /// The value of a number that some range has.
    pub fn get(&self, number: u64) -> &V {
        match &self.slots[number as usize] {
            Slot::Kept { value, .. } => value,
            Slot::Free { .. } => unreachable!("a number that some range has"),
        }
    }

    /// A number for the value, which one range is to have.
    pub fn add(&mut self, value: V) -> u64 {
        let slot = Slot::Kept { value, ranges: 1 };
        self.kept += 1;
        let Some(at) = self.free else {
            self.slots.push(slot);
            return self.slots.len() as u64 - 1;
        };
        if let Slot::Free { next } = std::mem::replace(&mut self.slots[at], slot) {
            self.free = next;
        }
        at as u64
    }

    fn ranges(&mut self, number: u64) -> &mut usize {
        match &mut self.slots[number as usize] {
            Slot::Kept { ranges, .. } => ranges,
            Slot::Free { .. } => unreachable!("a number that some range has"),
        }
    }

    /// One more range has the number.
    pub fn hold(&mut self, number: u64) {
        *self.ranges(number) += 1;
    }

    /// One range fewer has the number. The value of the last one is given back.
    pub fn release(&mut self, number: u64) -> Option<V> {
        let ranges = self.ranges(number);
        *ranges -= 1;
        if *ranges > 0 {
            return None;
        }
        let free = Slot::Free { next: self.free.replace(number as usize) };
        self.kept -= 1;
        match std::mem::replace(&mut self.slots[number as usize], free) {
            Slot::Kept { value, .. } => Some(value),
            Slot::Free { .. } => None,
        }
    }

    /// The value for a range that is taken out: the value itself of the last range that has it, else a clone.
    pub fn taken(&mut self, number: u64) -> V
    where
        V: Clone,
    {
        if *self.ranges(number) > 1 {
            self.release(number);
            return self.get(number).clone();
        }
        self.release(number).expect("the last range that has the value")
    }

    /// Gives back the memory of slots that are free and lie behind all that are not.
    pub fn shrink_to_fit(&mut self) {
        while matches!(self.slots.last(), Some(Slot::Free { .. })) {
            self.slots.pop();
        }
        self.slots.shrink_to_fit();
        self.free = None;
        for (at, slot) in self.slots.iter_mut().enumerate() {
            if let Slot::Free { next } = slot {
                *next = self.free.replace(at);
            }
        }
    }

    /// How many values are kept.
    pub fn count(&self) -> usize {
        self.kept
    }
}
