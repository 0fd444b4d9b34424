//! Writes, demotions, plugs and cleans.

use crate::array::{Array, Done, Kept, Refusal};
use crate::live::lowest_of;
use crate::record::{Header, Record, TRIM};

/// What comes of a move.
pub enum Move {
    Moved(Record),
    Nothing,
    NoRoom,
    Refused(Refusal),
}

impl Array {
    /// A fresh payload into the lowest free mirrored slot, for which one block is demoted where there is none.
    pub fn write(&mut self, block: u32, payload: &[u8]) -> Move {
        self.put(|array, slot| array.write_into(slot, block, 0, payload))
    }

    /// The same with no payload: the block is absent from then on.
    pub fn trim(&mut self, block: u32) -> Move {
        self.put(|array, slot| {
            let mut spare = std::mem::take(&mut array.spare);
            spare.fill(0);
            let told = array.write_into(slot, block, TRIM, &spare);
            array.spare = spare;
            told
        })
    }

    fn put(&mut self, put: impl FnOnce(&mut Array, u16) -> Done<Record>) -> Move {
        let slot = match self.free_mirrored() {
            Some(slot) => slot,
            None => match self.demote() {
                Move::Moved(_) => match self.free_mirrored() {
                    Some(slot) => slot,
                    None => return Move::NoRoom,
                },
                _ => return Move::NoRoom,
            },
        };
        put(self, slot).map_or_else(Move::Refused, Move::Moved)
    }

    fn write_into(&mut self, slot: u16, block: u32, kind: Header, payload: &[u8]) -> Done<Record> {
        let record = self.fresh(block, slot);
        self.write_unit(slot, record.header() | kind, payload)?;
        self.settle(record);
        Ok(record)
    }

    // A free slot is its block's newest place from now on, and the old place is free.
    fn settle(&mut self, record: Record) {
        self.keep(record.place, Kept::Newest);
        if let Some(old) = self.emit(record) {
            self.release(old);
        }
    }

    // A block's newest payload into a free slot.
    fn bring(&mut self, block: u32, slot: u16) -> Done<Record> {
        let newest = self.newest(block).ok_or(Refusal::Number(9))?;
        if newest.hop == u16::MAX {
            return Err(Refusal::Number(8));
        }
        let record = Record { hop: newest.hop + 1, place: slot, ..newest };
        let kind = self.kind(newest.place)?;
        self.copy_unit(newest.place, slot, record.header() | kind)?;
        self.settle(record);
        Ok(record)
    }

    // The same, and the log goes on behind that slot.
    fn append(&mut self, block: u32, slot: u16) -> Move {
        match self.bring(block, slot) {
            Ok(record) => {
                self.appended = Some(slot);
                Move::Moved(record)
            }
            Err(refusal) => Move::Refused(refusal),
        }
    }

    // The group to which the log was appended last, if it is a parity group.
    fn write_group(&self) -> Option<(usize, u32)> {
        let slot = self.appended?;
        let group = usize::from(slot >> 7);
        (self.live.slots(group) != 0).then_some((group, u32::from(slot & 127) + 1))
    }

    // The first slot where the log may go on, of those that are wanted of a group.
    fn first_append(&self, wanted: impl Fn(usize) -> u128) -> Option<u16> {
        let end = self.write_group();
        if let Some((group, next)) = end {
            let slots = self.live.holes(group) & u128::MAX << next & wanted(group);
            if slots != 0 {
                return Some(lowest_of(group, slots));
            }
        }
        let others = self.live.empty().iter().filter(|group| end.is_none_or(|(write, _)| write != *group));
        let mut slots = others.map(|group| (group, self.live.slots(group) & wanted(group)));
        slots.find(|(_, slots)| *slots != 0).map(|(group, slots)| lowest_of(group, slots))
    }

    /// The mirrored block that was written longest ago goes to where the log goes on.
    pub fn demote(&mut self) -> Move {
        let Some(block) = self.recency.oldest() else {
            return Move::Nothing;
        };
        match self.first_append(|group| self.free.of_group(group)) {
            Some(slot) => self.append(block, slot),
            None => Move::NoRoom,
        }
    }

    /// A hole of an almost full group is plugged from one with few live slots.
    pub fn plug(&mut self) -> Move {
        let Some((from, to)) = self.live.plug(self.write_group().map(|(group, _)| group)) else {
            return Move::Nothing;
        };
        if !self.is_free(to) {
            return Move::NoRoom;
        }
        self.bring(self.contents[usize::from(from)].block, to).map_or_else(Move::Refused, Move::Moved)
    }

    /// Where nothing can be plugged, the group with fewest live slots gives its lowest to the log.
    pub fn clean(&mut self) -> Move {
        let end = self.write_group().map(|(group, _)| group);
        if self.live.plug(end).is_some() {
            return Move::Nothing;
        }
        let (Some(from), Some(to)) = (self.live.clean(end), self.first_append(|_| u128::MAX)) else {
            return Move::Nothing;
        };
        if !self.is_free(to) { Move::NoRoom } else { self.append(self.contents[usize::from(from)].block, to) }
    }
}
