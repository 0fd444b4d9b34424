//! Drives in memory: extents of units, each a header and a payload. What was never written is zero and takes no memory.

use crate::bits::Set;
use crate::record::Header;
use crate::stop::{Stop, Told, reserve, reserve_exact, table};

/// An extent of a drive.
#[derive(Clone, Copy, Default, PartialEq, Eq)]
pub struct Member {
    pub drive: u8,
    pub extent: u16,
}

/// A unit of a drive: the offset counts the units of its extent.
#[derive(Clone, Copy, PartialEq, Eq)]
pub struct Unit {
    pub drive: u8,
    pub offset: u8,
    pub extent: u16,
}

#[derive(Default)]
struct Extent {
    headers: [Header; 16],
    /// The payloads up to the last one that was written.
    payloads: Vec<u8>,
}

pub struct Drive {
    pub is_lost: bool,
    /// How many of its extents belong to groups.
    pub load: u32,
    /// Extents that belong to groups.
    pub owned: Set,
    /// Groups with a member here.
    pub groups: Set,
    extents: Vec<Extent>,
}

pub struct Drives {
    pub all: Vec<Drive>,
    payload: usize,
    zeros: Vec<u8>,
}

impl Extent {
    #[inline]
    fn payload(&self, offset: u8, size: usize) -> Option<&[u8]> {
        let start = usize::from(offset) * size;
        self.payloads.get(start..start + size)
    }

    // Memory for all payloads was taken when the extent was wiped.
    #[inline]
    fn payload_mut(&mut self, offset: u8, size: usize) -> &mut [u8] {
        let start = usize::from(offset) * size;
        if self.payloads.len() < start + size {
            self.payloads.resize(start + size, 0);
        }
        &mut self.payloads[start..start + size]
    }
}

impl Drive {
    #[inline]
    fn extent(&self, unit: Unit) -> &Extent {
        &self.extents[usize::from(unit.extent)]
    }

    #[inline]
    fn extent_mut(&mut self, unit: Unit) -> &mut Extent {
        &mut self.extents[usize::from(unit.extent)]
    }
}

fn xor_into(sum: &mut [u8], other: &[u8]) {
    for (sum, other) in sum.iter_mut().zip(other) {
        *sum ^= other;
    }
}

impl Drives {
    pub fn new(count: usize, payload: usize) -> Result<Drives, Stop> {
        let mut drives = Drives { all: Vec::new(), payload, zeros: table(payload, 0)? };
        reserve(&mut drives.all, 16)?;
        for _ in 0..count {
            drives.add();
        }
        Ok(drives)
    }

    /// One more; there is room for sixteen.
    pub fn add(&mut self) {
        self.all.push(Drive { is_lost: false, load: 0, owned: Set::default(), groups: Set::default(), extents: Vec::new() });
    }

    #[inline]
    pub fn is_lost(&self, unit: Unit) -> bool {
        self.all[usize::from(unit.drive)].is_lost
    }

    pub fn is_here(&self, unit: &Unit) -> bool {
        !self.is_lost(*unit)
    }

    /// Makes an extent of so many units blank.
    pub fn wipe(&mut self, member: Member, units: usize) -> Told {
        let extents = &mut self.all[usize::from(member.drive)].extents;
        let count = usize::from(member.extent) + 1;
        if extents.len() < count {
            let more = count - extents.len();
            reserve(extents, more)?;
            extents.resize_with(count, Extent::default);
        }
        let extent = &mut extents[usize::from(member.extent)];
        extent.headers = [0; 16];
        extent.payloads.clear();
        reserve_exact(&mut extent.payloads, units * self.payload)
    }

    #[inline]
    pub fn header(&self, unit: Unit) -> Header {
        self.all[usize::from(unit.drive)].extent(unit).headers[usize::from(unit.offset & 15)]
    }

    #[inline]
    pub fn payload(&self, unit: Unit) -> &[u8] {
        self.all[usize::from(unit.drive)].extent(unit).payload(unit.offset, self.payload).unwrap_or(&self.zeros)
    }

    #[inline]
    pub fn write_header(&mut self, unit: Unit, header: Header) {
        self.all[usize::from(unit.drive)].extent_mut(unit).headers[usize::from(unit.offset & 15)] = header;
    }

    #[inline]
    pub fn write(&mut self, unit: Unit, header: Header, payload: &[u8]) {
        let extent = self.all[usize::from(unit.drive)].extent_mut(unit);
        extent.headers[usize::from(unit.offset & 15)] = header;
        extent.payload_mut(unit.offset, self.payload).copy_from_slice(payload);
    }

    /// Writes a unit, and takes what changes into the parity of its stripe.
    pub fn write_with_parity(&mut self, data: Unit, parity: Unit, header: Header, payload: &[u8]) {
        let two = [usize::from(data.drive), usize::from(parity.drive)];
        let [left, right] = self.all.get_disjoint_mut(two).expect("members of a group are on different drives");
        let (left, right) = (left.extent_mut(data), right.extent_mut(parity));
        let kept = &mut left.headers[usize::from(data.offset & 15)];
        right.headers[usize::from(parity.offset & 15)] ^= *kept ^ header;
        *kept = header;
        let olds = left.payload_mut(data.offset, self.payload);
        let sums = right.payload_mut(parity.offset, self.payload);
        for ((sum, old), new) in sums.iter_mut().zip(olds).zip(payload) {
            *sum ^= *old ^ new;
            *old = *new;
        }
    }

    /// Writes a unit's header alone, and takes what changes into the parity of its stripe.
    pub fn write_header_with_parity(&mut self, data: Unit, parity: Unit, header: Header) {
        let old = self.header(data);
        let sum = self.header(parity);
        self.write_header(data, header);
        self.write_header(parity, sum ^ old ^ header);
    }

    /// Takes a unit's payload into a sum.
    pub fn xor_onto(&self, unit: Unit, sum: &mut [u8]) {
        xor_into(sum, self.payload(unit));
    }

    /// Takes a unit's content into the sum that another holds.
    pub fn xor(&mut self, from: Unit, sum: Unit) {
        let header = self.header(from) ^ self.header(sum);
        self.write_header(sum, header);
        let two = [usize::from(from.drive), usize::from(sum.drive)];
        let [left, right] = self.all.get_disjoint_mut(two).expect("members of a group are on different drives");
        if let Some(payload) = left.extent(from).payload(from.offset, self.payload) {
            xor_into(right.extent_mut(sum).payload_mut(sum.offset, self.payload), payload);
        }
    }

    /// Copies an extent as it stands to one that was wiped.
    pub fn copy_extent(&mut self, from: Member, to: Member) {
        let two = [usize::from(from.drive), usize::from(to.drive)];
        let [from_drive, to_drive] = self.all.get_disjoint_mut(two).expect("a member moves to another drive");
        let from = &from_drive.extents[usize::from(from.extent)];
        let to = &mut to_drive.extents[usize::from(to.extent)];
        to.headers = from.headers;
        to.payloads.extend_from_slice(&from.payloads);
    }
}
