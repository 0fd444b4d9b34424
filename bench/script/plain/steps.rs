//! The steps of a worker: fill, copy, commit, discard and reads.

use crate::array::{Array, Content, Done, Kept, Refusal};
use crate::groups::Place;
use crate::record::{Header, Record, TRIM, place_of};

/// What is read at a record's place: its payload, or another header.
pub enum At<'a> {
    Data(&'a [u8]),
    Trimmed,
    Stale(Option<Record>),
}

impl Array {
    pub fn claim(&mut self, worker: u8, slot: u16) -> bool {
        let is_free = self.is_free(slot);
        if is_free {
            self.keep(slot, Kept::Claimed(worker));
        }
        is_free
    }

    /// A fresh payload into a slot that the worker holds.
    pub fn fill(&mut self, worker: u8, slot: u16, payload: &[u8]) -> Done<()> {
        match self.place(slot) {
            Place::Nowhere => return Err(Refusal::Number(2)),
            Place::Parity(..) => return Err(Refusal::Number(3)),
            Place::Mirrored(..) => self.write_unit(slot, 0, payload)?,
        }
        self.kept[usize::from(slot)] = Kept::Fresh(worker);
        Ok(())
    }

    /// A block's newest payload into a slot that the worker holds.
    pub fn copy(&mut self, worker: u8, slot: u16, block: u32) -> Done<()> {
        if self.place(slot) == Place::Nowhere {
            return Err(Refusal::Number(2));
        }
        let newest = self.newest(block).ok_or(Refusal::Number(9))?;
        if newest.hop == u16::MAX {
            return Err(Refusal::Number(8));
        }
        let kind = self.kind(newest.place)?;
        self.copy_unit(newest.place, slot, 0)?;
        self.kept[usize::from(slot)] = Kept::Moved(worker);
        self.contents[usize::from(slot)] = Content { block, key: newest.key(), kind };
        Ok(())
    }

    /// The bit of a slot's header that tells a trim, or 0.
    #[inline]
    pub fn kind(&self, slot: u16) -> Done<Header> {
        Ok(self.header(slot)? & TRIM)
    }

    /// Copies a payload from slot to slot, with this header.
    pub fn copy_unit(&mut self, from: u16, to: u16, header: Header) -> Done<()> {
        let mut spare = std::mem::take(&mut self.spare);
        let told = self.read_payload(from, &mut spare).and_then(|()| self.write_unit(to, header, &spare));
        self.spare = spare;
        told
    }

    /// The record of a fresh write of a block.
    #[inline]
    pub fn fresh(&self, block: u32, slot: u16) -> Record {
        Record { block, version: (self.keys[block as usize] >> 32) as u32 + 1, hop: 0, place: slot }
    }

    /// Makes a slot's content its block's newest; the worker has the old place then. For its record there is room in the log.
    pub fn commit(&mut self, worker: u8, slot: u16, block: u32) -> Done<Record> {
        let (record, kind) = match self.kept[usize::from(slot)] {
            Kept::Fresh(holder) if holder == worker => (self.fresh(block, slot), 0),
            Kept::Moved(holder) if holder == worker => (self.moved(slot, block)?, self.contents[usize::from(slot)].kind),
            _ => return Err(Refusal::Number(5)),
        };
        self.write_header(slot, record.header() | kind)?;
        self.kept[usize::from(slot)] = Kept::Newest;
        if let Some(old) = self.emit(record) {
            self.kept[usize::from(old)] = Kept::Claimed(worker);
        }
        Ok(record)
    }

    // The record of a block's copy, unless a newer write outran it.
    fn moved(&self, slot: u16, block: u32) -> Done<Record> {
        let copied = self.contents[usize::from(slot)];
        if copied.block != block {
            return Err(Refusal::Number(5));
        }
        let (Some(newest), Some(copied)) = (self.newest(block), Record::of_key(block, copied.key)) else {
            return Err(Refusal::Number(5));
        };
        if (newest.version, newest.hop) != (copied.version, copied.hop) {
            return Err(Refusal::Outrun(newest));
        }
        Ok(Record { hop: copied.hop + 1, place: slot, ..copied })
    }

    /// Notes a block's new record in the tables and in the log, and gives the old place.
    #[inline]
    pub fn emit(&mut self, record: Record) -> Option<u16> {
        let key = &mut self.keys[record.block as usize];
        let old = place_of(*key);
        *key = record.key();
        self.log.push(record);
        self.contents[usize::from(record.place)].block = record.block;
        match old {
            None => self.written += 1,
            Some(old) if matches!(self.places[usize::from(old)], Place::Parity(..)) => self.live.remove(old),
            Some(_) => {}
        }
        let is_mirrored = matches!(self.places[usize::from(record.place)], Place::Mirrored(..));
        if !is_mirrored {
            self.live.insert(record.place);
        }
        if record.hop == 0 {
            self.recency.wrote(record.block);
        } else {
            self.recency.moved(record.block, is_mirrored);
        }
        old
    }

    pub fn discard(&mut self, worker: u8, slot: u16) -> Done<()> {
        match self.kept[usize::from(slot)] {
            Kept::Fresh(holder) | Kept::Moved(holder) if holder == worker => {
                self.kept[usize::from(slot)] = Kept::Claimed(worker);
                Ok(())
            }
            _ => Err(Refusal::Number(5)),
        }
    }

    pub fn read(&mut self, block: u32) -> Done<Option<(u32, &[u8])>> {
        match self.newest(block) {
            None => Ok(None),
            Some(newest) if self.kind(newest.place)? != 0 => Ok(None),
            Some(newest) => Ok(Some((newest.version, self.payload(newest.place)?))),
        }
    }

    pub fn at(&mut self, record: Record) -> Done<At<'_>> {
        let newest = self.newest(record.block);
        if record.key() > self.keys[record.block as usize] {
            return Err(Refusal::Ahead(newest));
        }
        if self.place(record.place) == Place::Nowhere {
            return Ok(At::Stale(None));
        }
        let header = self.header(record.place)?;
        if header == record.header() {
            return Ok(At::Data(self.payload(record.place)?));
        }
        if header == record.header() | TRIM {
            return Ok(At::Trimmed);
        }
        Ok(At::Stale(Record::of_header(header)))
    }
}
