//! Slots read and written, whether drives are lost or not.

use crate::array::{Array, Done, Refusal};
use crate::drives::{Drives, Unit};
use crate::groups::{Group, Place};
use crate::record::Header;

impl Array {
    // The unit that tells a slot's content as it stands.
    #[inline]
    fn present(&self, slot: u16) -> Option<Unit> {
        match self.place(slot) {
            Place::Nowhere => None,
            Place::Mirrored(first, second) => [first, second].into_iter().find(|unit| self.drives.is_here(unit)),
            Place::Parity(data, _) => Some(data).filter(|unit| self.drives.is_here(unit)),
        }
    }

    // A lost unit of a parity slot, and its group, of which no other member may be lost.
    fn rebuildable(&self, slot: u16) -> Done<(Unit, &Group)> {
        if let (Place::Parity(data, _), Some(group)) = (self.place(slot), self.group(usize::from(slot >> 7)))
            && group.others(data).all(|unit| self.drives.is_here(&unit))
        {
            return Ok((data, group));
        }
        Err(Refusal::Gone(slot))
    }

    pub fn header(&self, slot: u16) -> Done<Header> {
        if let Some(unit) = self.present(slot) {
            return Ok(self.drives.header(unit));
        }
        let (unit, group) = self.rebuildable(slot)?;
        Ok(group.others(unit).fold(0, |sum, other| sum ^ self.drives.header(other)))
    }

    /// A slot's payload, on its drive or rebuilt.
    #[inline]
    pub fn payload(&mut self, slot: u16) -> Done<&[u8]> {
        if let Some(unit) = self.present(slot) {
            return Ok(self.drives.payload(unit));
        }
        let mut spare = std::mem::take(&mut self.spare);
        let told = self.rebuild_payload(slot, &mut spare);
        self.spare = spare;
        told.map(|()| &self.spare[..])
    }

    fn rebuild_payload(&self, slot: u16, into: &mut [u8]) -> Done<()> {
        let (unit, group) = self.rebuildable(slot)?;
        into.fill(0);
        for other in group.others(unit) {
            self.drives.xor_onto(other, into);
        }
        Ok(())
    }

    /// Copies a slot's payload.
    pub fn read_payload(&self, slot: u16, into: &mut [u8]) -> Done<()> {
        match self.present(slot) {
            Some(unit) => {
                into.copy_from_slice(self.drives.payload(unit));
                Ok(())
            }
            None => self.rebuild_payload(slot, into),
        }
    }

    // Writes each copy on a present drive, of which there has to be one.
    #[inline(always)]
    fn write_copies(&mut self, slot: u16, [first, second]: [Unit; 2], write: impl Fn(&mut Drives, Unit)) -> Done<()> {
        let (one, other) = (self.drives.is_here(&first), self.drives.is_here(&second));
        if one {
            write(&mut self.drives, first);
        }
        if other {
            write(&mut self.drives, second);
        }
        if one || other { Ok(()) } else { Err(Refusal::Gone(slot)) }
    }

    #[inline]
    pub fn write_unit(&mut self, slot: u16, header: Header, payload: &[u8]) -> Done<()> {
        match self.place(slot) {
            Place::Mirrored(first, second) => self.write_copies(slot, [first, second], |drives, unit| drives.write(unit, header, payload)),
            Place::Parity(data, parity) => self.write_parity(slot, (data, parity), header, Some(payload)),
            Place::Nowhere => Err(Refusal::Number(2)),
        }
    }

    /// Writes a slot's header alone.
    #[inline]
    pub fn write_header(&mut self, slot: u16, header: Header) -> Done<()> {
        match self.place(slot) {
            Place::Mirrored(first, second) => self.write_copies(slot, [first, second], |drives, unit| drives.write_header(unit, header)),
            Place::Parity(data, parity) => self.write_parity(slot, (data, parity), header, None),
            Place::Nowhere => Err(Refusal::Number(2)),
        }
    }

    fn write_parity(&mut self, slot: u16, (data, parity): (Unit, Unit), header: Header, payload: Option<&[u8]>) -> Done<()> {
        match (self.drives.is_here(&data), self.drives.is_here(&parity), payload) {
            (false, _, _) => return self.write_lost(slot, parity, header, payload),
            (true, true, Some(payload)) => self.drives.write_with_parity(data, parity, header, payload),
            (true, true, None) => self.drives.write_header_with_parity(data, parity, header),
            (true, false, Some(payload)) => self.drives.write(data, header, payload),
            (true, false, None) => self.drives.write_header(data, header),
        }
        Ok(())
    }

    // The slot's own drive is lost: its content goes into the parity unit, which becomes the sum of the stripe anew.
    fn write_lost(&mut self, slot: u16, parity: Unit, header: Header, payload: Option<&[u8]>) -> Done<()> {
        let (data, group) = self.rebuildable(slot)?;
        let group = *group;
        let others = group.others(data).filter(|unit| *unit != parity);
        if let Some(payload) = payload {
            self.drives.write(parity, header, payload);
            others.for_each(|other| self.drives.xor(other, parity));
        } else {
            let sum = others.fold(header, |sum, other| sum ^ self.drives.header(other));
            self.drives.write_header(parity, sum);
        }
        Ok(())
    }
}
