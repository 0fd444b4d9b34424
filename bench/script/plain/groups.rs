//! Groups of extents, and where their slots lie.

use crate::drives::{Member, Unit};

#[derive(Clone, Copy, PartialEq, Eq)]
pub enum Class {
    Mirrored,
    Parity,
}

/// Where a slot lies: on two units alike, or on one with a parity unit.
#[derive(Clone, Copy, PartialEq, Eq)]
pub enum Place {
    Nowhere,
    Mirrored(Unit, Unit),
    Parity(Unit, Unit),
}

#[derive(Clone, Copy)]
pub struct Group {
    pub class: Class,
    pub size: u8,
    segments: u8,
    count: u8,
    members: [Member; 8],
}

impl Group {
    pub fn new(class: Class, segments: u8, count: usize, members: [Member; 8]) -> Group {
        let count = count as u8;
        let size = match class {
            Class::Mirrored => count * segments / 2 * 2,
            Class::Parity => 2 * segments * (count - 1),
        };
        Group { class, size, segments, count, members }
    }

    /// All its slots, the lowest in the lowest bit.
    pub fn slots(&self) -> u128 {
        (1 << self.size) - 1
    }

    pub fn members(&self) -> &[Member] {
        &self.members[..usize::from(self.count)]
    }

    pub fn replace(&mut self, member: usize, by: Member) {
        self.members[member] = by;
    }

    /// Units of an extent.
    pub fn units(&self) -> u8 {
        2 * self.segments
    }

    pub fn unit(&self, member: u8, offset: u8) -> Unit {
        let Member { drive, extent } = self.members[usize::from(member)];
        Unit { drive, offset, extent }
    }

    pub fn place(&self, index: u8) -> Place {
        match self.class {
            Class::Mirrored => self.mirrored(index),
            Class::Parity => self.parity(index),
        }
    }

    // Segments are dealt out to the members in turn, and the two of a pair are one behind the other.
    fn mirrored(&self, index: u8) -> Place {
        let unit = |position: u8| self.unit(position % self.count, position / self.count * 2 + index % 2);
        let pair = index / 2;
        Place::Mirrored(unit(2 * pair), unit(2 * pair + 1))
    }

    fn parity(&self, index: u8) -> Place {
        let (segment, data) = (index / 2, self.count - 1);
        let stripe = segment / data;
        let parity = data - stripe % self.count;
        let nth = segment % data;
        let member = if nth < parity { nth } else { nth + 1 };
        let offset = 2 * stripe + index % 2;
        Place::Parity(self.unit(member, offset), self.unit(parity, offset))
    }

    /// Where the other copy of a mirrored group's unit lies, if there is one.
    pub fn twin(&self, member: u8, offset: u8) -> Option<Unit> {
        let other = (offset / 2 * self.count + member) ^ 1;
        (other < self.count * self.segments).then(|| self.unit(other % self.count, other / self.count * 2 + offset % 2))
    }

    /// The units of other members at the same offset.
    pub fn others(&self, unit: Unit) -> impl Iterator<Item = Unit> {
        self.members().iter().filter(move |member| member.drive != unit.drive).map(move |member| Unit {
            drive: member.drive,
            offset: unit.offset,
            extent: member.extent,
        })
    }
}
