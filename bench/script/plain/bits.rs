//! Sets of small numbers, as bits in words.

use crate::stop::{Stop, table};

/// A set of groups or of extents: numbers below 512.
#[derive(Clone, Copy, Default)]
pub struct Set([u64; 8]);

impl Set {
    #[inline]
    pub fn insert(&mut self, number: usize) {
        self.0[number / 64 % 8] |= 1 << (number % 64);
    }

    #[inline]
    pub fn remove(&mut self, number: usize) {
        self.0[number / 64 % 8] &= !(1 << (number % 64));
    }

    pub fn has(&self, number: usize) -> bool {
        self.0[number / 64 % 8] >> (number % 64) & 1 == 1
    }

    pub fn is_empty(&self) -> bool {
        self.0 == [0; 8]
    }

    /// What is in both.
    pub fn and(mut self, other: &Set) -> Set {
        for (word, other) in self.0.iter_mut().zip(other.0) {
            *word &= other;
        }
        self
    }

    /// What is in this one alone.
    pub fn without(mut self, other: &Set) -> Set {
        for (word, other) in self.0.iter_mut().zip(other.0) {
            *word &= !other;
        }
        self
    }

    pub fn first(&self) -> Option<usize> {
        let at = self.0.iter().position(|word| *word != 0)?;
        Some(64 * at + self.0[at].trailing_zeros() as usize)
    }

    /// The lowest but this one.
    pub fn first_but(&self, passed: Option<usize>) -> Option<usize> {
        let mut others = *self;
        if let Some(passed) = passed {
            others.remove(passed);
        }
        others.first()
    }

    /// The lowest number below 512 that isn't here.
    pub fn first_absent(&self) -> Option<usize> {
        Set(self.0.map(|word| !word)).first()
    }

    pub fn iter(mut self) -> impl Iterator<Item = usize> {
        std::iter::from_fn(move || {
            let first = self.first()?;
            self.remove(first);
            Some(first)
        })
    }
}

/// A set of slots, 128 a group.
pub struct SlotSet(Vec<u64>);

impl SlotSet {
    pub fn new(all: bool) -> Result<SlotSet, Stop> {
        Ok(SlotSet(table(1024, if all { u64::MAX } else { 0 })?))
    }

    #[inline]
    pub fn insert(&mut self, slot: u16) {
        self.0[usize::from(slot >> 6)] |= 1 << (slot & 63);
    }

    #[inline]
    pub fn remove(&mut self, slot: u16) {
        self.0[usize::from(slot >> 6)] &= !(1 << (slot & 63));
    }

    /// A group's slots, the lowest in the lowest bit.
    #[inline]
    pub fn of_group(&self, group: usize) -> u128 {
        u128::from(self.0[2 * group]) | u128::from(self.0[2 * group + 1]) << 64
    }

    pub fn fill(&mut self, all: bool) {
        self.0.fill(if all { u64::MAX } else { 0 });
    }
}

/// A set of numbers below 2^18, in three levels: a bit above is set where a word below isn't 0.
pub struct Marks {
    low: Vec<u64>,
    middle: Vec<u64>,
    top: u64,
}

impl Marks {
    /// For numbers below so many, which is a multiple of 4,096.
    pub fn new(count: usize) -> Result<Marks, Stop> {
        Ok(Marks { low: table(count / 64, 0)?, middle: table(count / 4096, 0)?, top: 0 })
    }

    #[inline]
    pub fn insert(&mut self, number: u32) {
        let at = number as usize;
        self.low[at >> 6] |= 1 << (at & 63);
        self.middle[at >> 12] |= 1 << (at >> 6 & 63);
        self.top |= 1 << (at >> 12 & 63);
    }

    #[inline]
    pub fn remove(&mut self, number: u32) {
        let at = number as usize;
        self.low[at >> 6] &= !(1 << (at & 63));
        if self.low[at >> 6] == 0 {
            self.middle[at >> 12] &= !(1 << (at >> 6 & 63));
            if self.middle[at >> 12] == 0 {
                self.top &= !(1 << (at >> 12 & 63));
            }
        }
    }

    pub fn clear(&mut self) {
        self.low.fill(0);
        self.middle.fill(0);
        self.top = 0;
    }

    pub fn has(&self, number: u32) -> bool {
        self.low[number as usize >> 6] >> (number & 63) & 1 == 1
    }

    pub fn first(&self) -> Option<u32> {
        if self.top == 0 {
            return None;
        }
        let high = self.top.trailing_zeros();
        let middle = high << 6 | self.middle[high as usize].trailing_zeros();
        Some(middle << 6 | self.low[middle as usize].trailing_zeros())
    }
}
