//! The array: its drives and groups, what each slot is kept for, and where each block lies.

use crate::bits::{Set, SlotSet};
use crate::drives::Drives;
use crate::groups::{Group, Place};
use crate::live::{Live, lowest_of};
use crate::recency::Recency;
use crate::record::{Header, Record};
use crate::stop::{Stop, Told, reserve, table};

/// What a slot is kept for, and by which worker.
#[derive(Clone, Copy, PartialEq, Eq)]
pub enum Kept {
    Free,
    Claimed(u8),
    Fresh(u8),
    Moved(u8),
    Newest,
    Shut,
}

/// Why a step is refused.
pub enum Refusal {
    Number(u8),
    Outrun(Record),
    Gone(u16),
    Held(u16),
    Lost(u8),
    Ahead(Option<Record>),
}

pub type Done<T> = Result<T, Refusal>;

/// Whose content a slot has: of a newest place its block, of a copy that waits for its commit also the key and the kind that
/// were copied.
#[derive(Clone, Copy)]
pub struct Content {
    pub block: u32,
    pub key: u64,
    pub kind: Header,
}

#[derive(Clone, Copy)]
pub struct Shape {
    pub drives: u8,
    pub extents: u16,
    pub segments: u8,
    pub payload: usize,
    pub blocks: u32,
}

pub struct Array {
    pub shape: Shape,
    pub drives: Drives,
    pub groups: Vec<Option<Group>>,
    /// By slot, for as many groups as there were.
    pub places: Vec<Place>,
    pub contents: Vec<Content>,
    /// By slot.
    pub kept: Vec<Kept>,
    pub free: SlotSet,
    /// Groups that may have a free slot, and groups that are mirrored.
    pub open: Set,
    pub mirrored: Set,
    /// By block: the key of its newest record.
    pub keys: Vec<u64>,
    pub written: usize,
    pub log: Vec<Record>,
    pub live: Live,
    pub recency: Recency,
    /// The slot to which the write log was appended last.
    pub appended: Option<u16>,
    /// By block: what a scan has found.
    pub found: Vec<u64>,
    /// A payload that is copied or rebuilt.
    pub spare: Vec<u8>,
}

impl Array {
    pub fn new(shape: Shape) -> Result<Array, Stop> {
        Ok(Array {
            shape,
            drives: Drives::new(usize::from(shape.drives), shape.payload)?,
            groups: Vec::new(),
            places: Vec::new(),
            contents: Vec::new(),
            kept: table(65_536, Kept::Free)?,
            free: SlotSet::new(true)?,
            open: Set::default(),
            mirrored: Set::default(),
            keys: table(shape.blocks as usize, 0)?,
            written: 0,
            log: Vec::new(),
            live: Live::new()?,
            recency: Recency::new(shape.blocks)?,
            appended: None,
            found: Vec::new(),
            spare: table(shape.payload, 0)?,
        })
    }

    /// Room for two records more, which is what a command emits at most. A script has too few lines to fill a log or to spend a version.
    #[inline]
    pub fn reserve(&mut self) -> Told {
        if self.log.capacity() - self.log.len() < 2 { reserve(&mut self.log, 2) } else { Ok(()) }
    }

    #[inline]
    pub fn newest(&self, block: u32) -> Option<Record> {
        Record::of_key(block, self.keys[block as usize])
    }

    #[inline]
    pub fn place(&self, slot: u16) -> Place {
        self.places.get(usize::from(slot)).copied().unwrap_or(Place::Nowhere)
    }

    pub fn group(&self, group: usize) -> Option<&Group> {
        self.groups.get(group)?.as_ref()
    }

    #[inline]
    pub fn is_free(&self, slot: u16) -> bool {
        self.kept[usize::from(slot)] == Kept::Free
    }

    #[inline]
    pub fn holds(&self, worker: u8, slot: u16) -> bool {
        self.kept[usize::from(slot)] == Kept::Claimed(worker)
    }

    /// A free slot is kept for something.
    #[inline]
    pub fn keep(&mut self, slot: u16, kept: Kept) {
        self.kept[usize::from(slot)] = kept;
        self.free.remove(slot);
    }

    #[inline]
    pub fn release(&mut self, slot: u16) {
        self.kept[usize::from(slot)] = Kept::Free;
        self.free.insert(slot);
        self.open.insert(usize::from(slot >> 7));
    }

    /// The lowest free slot of mirrored groups. Groups that turn out to have none are looked at again once a slot is released.
    pub fn free_mirrored(&mut self) -> Option<u16> {
        while let Some(group) = self.open.and(&self.mirrored).first() {
            let slots = self.groups[group].as_ref().map_or(0, Group::slots);
            let free = self.free.of_group(group) & slots;
            if free != 0 {
                return Some(lowest_of(group, free));
            }
            self.open.remove(group);
        }
        None
    }
}
