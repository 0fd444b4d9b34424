//! The map that headers tell, and arrays begun anew from it.

use crate::array::{Array, Kept, Refusal};
use crate::groups::Place;
use crate::record::Record;
use crate::stop::{Stop, Told, reserve, table};

/// What is wrong with a slot: its number, the slot and, of a header of another slot, what it tells.
pub enum Fault {
    Gone(u16),
    Bad(u16),
    Elsewhere(u16, u16),
}

impl Array {
    /// Finds the newest record of each block that the headers of all slots tell; how many there are.
    pub fn scan(&mut self) -> Result<Result<usize, Fault>, Stop> {
        if self.found.is_empty() {
            self.found = table(self.keys.len(), 0)?;
        }
        let mut found = std::mem::take(&mut self.found);
        found.fill(0);
        let told = self.scan_into(&mut found);
        self.found = found;
        Ok(told)
    }

    fn scan_into(&self, found: &mut [u64]) -> Result<usize, Fault> {
        let mut count = 0;
        for (number, group) in self.groups.iter().enumerate() {
            let Some(group) = group else { continue };
            let first = 128 * number as u16;
            for slot in first..first + u16::from(group.size) {
                let Some(record) = self.told(slot)? else { continue };
                let key = found.get_mut(record.block as usize).ok_or(Fault::Bad(slot))?;
                count += usize::from(*key == 0);
                *key = record.key().max(*key);
            }
        }
        Ok(count)
    }

    // The record that a slot's header tells.
    #[inline]
    fn told(&self, slot: u16) -> Result<Option<Record>, Fault> {
        let header = self.header(slot).map_err(|_: Refusal| Fault::Gone(slot))?;
        if header == 0 {
            return Ok(None);
        }
        let record = Record::of_header(header).ok_or(Fault::Bad(slot))?;
        if record.place == slot { Ok(Some(record)) } else { Err(Fault::Elsewhere(slot, record.place)) }
    }

    /// Begins anew with what a scan has found: only newest places are held, and the log is the map's records.
    pub fn begin(&mut self, count: usize) -> Told {
        self.keys.copy_from_slice(&self.found);
        self.written = count;
        self.log.clear();
        reserve(&mut self.log, count)?;
        self.kept.fill(Kept::Free);
        self.free.fill(true);
        self.open = self.mirrored;
        self.live.clear();
        self.appended = None;
        self.recency.begin();
        for block in 0..self.shape.blocks {
            let Some(record) = self.newest(block) else { continue };
            self.log.push(record);
            self.keep(record.place, Kept::Newest);
            self.contents[usize::from(record.place)].block = block;
            match self.place(record.place) {
                Place::Parity(..) => self.live.insert(record.place),
                _ => self.recency.moved(block, true),
            }
        }
        Ok(())
    }
}

/// The records of a table of keys.
pub fn records(keys: &[u64]) -> impl Iterator<Item = Record> {
    (0..).zip(keys).filter_map(|(block, key)| Record::of_key(block, *key))
}
