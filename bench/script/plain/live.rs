//! Which slots of parity groups are live, and which groups have how many of them.

use crate::bits::{Set, SlotSet};
use crate::stop::{Stop, table};

/// A parity group has 2 * 8 * 7 slots at most.
const MOST: usize = 112;

/// Groups by their number of live slots.
struct ByCount {
    groups: Vec<Set>,
    /// Which numbers some group has.
    used: u128,
}

impl ByCount {
    fn new() -> Result<ByCount, Stop> {
        Ok(ByCount { groups: table(MOST + 1, Set::default())?, used: 0 })
    }

    fn insert(&mut self, count: u8, group: usize) {
        self.groups[usize::from(count)].insert(group);
        self.used |= 1 << count;
    }

    fn remove(&mut self, count: u8, group: usize) {
        let groups = &mut self.groups[usize::from(count)];
        groups.remove(group);
        if groups.is_empty() {
            self.used &= !(1 << count);
        }
    }

    // The lowest group of fewest live slots, but one at least, that isn't passed over.
    fn fewest(&self, passed: Option<usize>) -> Option<(usize, usize)> {
        let mut used = self.used & !1;
        while used != 0 {
            let count = used.trailing_zeros() as usize;
            if let Some(group) = self.groups[count].first_but(passed) {
                return Some((count, group));
            }
            used &= used - 1;
        }
        None
    }

    fn most(&self, passed: Option<usize>) -> Option<(usize, usize)> {
        let mut used = self.used & !1;
        while used != 0 {
            let count = used.ilog2() as usize;
            if let Some(group) = self.groups[count].first_but(passed) {
                return Some((count, group));
            }
            used &= !(1 << count);
        }
        None
    }
}

pub struct Live {
    slots: SlotSet,
    counts: Vec<u8>,
    sizes: Vec<u8>,
    all: ByCount,
    with_holes: ByCount,
}

/// The slots of a group with so many.
fn first_slots(size: u8) -> u128 {
    (1 << size) - 1
}

impl Live {
    pub fn new() -> Result<Live, Stop> {
        Ok(Live {
            slots: SlotSet::new(false)?,
            counts: table(512, 0)?,
            sizes: table(512, 0)?,
            all: ByCount::new()?,
            with_holes: ByCount::new()?,
        })
    }

    /// A parity group is made.
    pub fn begin(&mut self, group: usize, size: u8) {
        (self.counts[group], self.sizes[group]) = (0, size);
        self.file(group);
    }

    /// A parity group without live slots is unmade.
    pub fn end(&mut self, group: usize) {
        self.unfile(group);
        self.sizes[group] = 0;
    }

    /// No slot is live any longer.
    pub fn clear(&mut self) {
        self.slots.fill(false);
        for group in 0..self.counts.len() {
            if self.sizes[group] > 0 {
                self.unfile(group);
                self.counts[group] = 0;
                self.file(group);
            }
        }
    }

    fn file(&mut self, group: usize) {
        let count = self.counts[group];
        self.all.insert(count, group);
        if count < self.sizes[group] {
            self.with_holes.insert(count, group);
        }
    }

    fn unfile(&mut self, group: usize) {
        let count = self.counts[group];
        self.all.remove(count, group);
        if count < self.sizes[group] {
            self.with_holes.remove(count, group);
        }
    }

    /// A slot becomes live, which wasn't.
    pub fn insert(&mut self, slot: u16) {
        let group = usize::from(slot >> 7);
        self.unfile(group);
        self.slots.insert(slot);
        self.counts[group] += 1;
        self.file(group);
    }

    /// A slot isn't live any longer.
    pub fn remove(&mut self, slot: u16) {
        let group = usize::from(slot >> 7);
        self.unfile(group);
        self.slots.remove(slot);
        self.counts[group] -= 1;
        self.file(group);
    }

    /// Groups without live slots.
    pub fn empty(&self) -> &Set {
        &self.all.groups[0]
    }

    /// All slots of a parity group; none of another.
    pub fn slots(&self, group: usize) -> u128 {
        first_slots(self.sizes[group])
    }

    pub fn holes(&self, group: usize) -> u128 {
        self.slots(group) & !self.slots.of_group(group)
    }

    pub fn lowest(&self, group: usize) -> u16 {
        lowest_of(group, self.slots.of_group(group))
    }

    /// From where and to where a plug goes: from the emptiest group into the fullest one.
    pub fn plug(&self, end: Option<usize>) -> Option<(u16, u16)> {
        let (most, target) = self.with_holes.most(end)?;
        let (fewest, source) = self.all.fewest(Some(target))?;
        (fewest <= most).then(|| (self.lowest(source), lowest_of(target, self.holes(target))))
    }

    /// From where a clean goes.
    pub fn clean(&self, end: Option<usize>) -> Option<u16> {
        let (_, group) = self.with_holes.fewest(end)?;
        Some(self.lowest(group))
    }
}

/// The lowest of some slots of a group.
pub fn lowest_of(group: usize, slots: u128) -> u16 {
    (128 * group) as u16 + slots.trailing_zeros() as u16
}
