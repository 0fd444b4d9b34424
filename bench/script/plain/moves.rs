//! Members of groups moved to other drives.

use std::cmp::Reverse;

use crate::array::{Array, Done, Refusal};
use crate::bits::Set;
use crate::drives::{Drive, Member, Unit};
use crate::groups::{Class, Group};
use crate::stop::Stop;

/// A member of a group, by its number, and where it goes.
pub struct Shift {
    pub group: usize,
    pub member: usize,
    pub to: Member,
}

/// What comes of a plan, which there may not be.
pub type Shifted = Done<Option<Shift>>;

impl Array {
    fn drive(&self, number: usize) -> &Drive {
        &self.drives.all[number]
    }

    // A drive's lowest free extent.
    fn free_extent(&self, drive: usize) -> Option<u16> {
        let extent = self.drive(drive).owned.first_absent()? as u16;
        (extent < self.shape.extents).then_some(extent)
    }

    // Groups with a member on one of two present drives and none on the other, which has two owned extents less.
    fn movable(&self, from: usize, to: usize) -> Set {
        let (giver, taker) = (self.drive(from), self.drive(to));
        if giver.is_lost || taker.is_lost || giver.load < taker.load + 2 || self.free_extent(to).is_none() {
            return Set::default();
        }
        giver.groups.without(&taker.groups)
    }

    /// One extent goes to a drive with fewer.
    pub fn balance(&mut self) -> Result<Shifted, Stop> {
        let count = self.drives.all.len();
        let pairs = (0..count).flat_map(|from| (0..count).map(move |to| (from, to)));
        let pairs = pairs.filter(|(from, to)| !self.movable(*from, *to).is_empty());
        let best = pairs.min_by_key(|(from, to)| (Reverse(self.drive(*from).load), self.drive(*to).load, *from, *to));
        match best.and_then(|(from, to)| Some((self.movable(from, to).first()?, from, to))) {
            Some((group, from, to)) => self.shift(group, from, to),
            None => Ok(Ok(None)),
        }
    }

    /// An extent of a lost drive is made anew on another.
    pub fn rebuild(&mut self, from: usize) -> Result<Shifted, Stop> {
        let Some(drive) = self.drives.all.get(from) else {
            return Ok(Err(Refusal::Number(18)));
        };
        let Some(group) = drive.groups.first().filter(|_| drive.is_lost) else {
            return Ok(Ok(None));
        };
        let takers = (0..self.drives.all.len()).filter(|to| {
            let taker = self.drive(*to);
            !taker.is_lost && !taker.groups.has(group) && self.free_extent(*to).is_some()
        });
        match takers.min_by_key(|to| (self.drive(*to).load, *to)) {
            Some(to) => self.shift(group, from, to),
            None => Ok(Ok(None)),
        }
    }

    // The group's member on one drive goes to the lowest free extent of another.
    fn shift(&mut self, number: usize, from: usize, to: usize) -> Result<Shifted, Stop> {
        let (Some(group), Some(extent)) = (self.groups[number], self.free_extent(to)) else {
            return Ok(Ok(None));
        };
        let Some(member) = group.members().iter().position(|member| usize::from(member.drive) == from) else {
            return Ok(Ok(None));
        };
        let (old, new) = (group.members()[member], Member { drive: to as u8, extent });
        let is_lost = self.drive(from).is_lost;
        if is_lost && !self.can_rebuild(&group, member as u8) {
            return Ok(Err(Refusal::Gone(self.first_gone(number, &group))));
        }
        self.drives.wipe(new, usize::from(group.units()))?;
        if is_lost {
            self.rebuild_extent(&group, member as u8, new);
        } else {
            self.drives.copy_extent(old, new);
        }
        self.disown(old, number);
        self.own(new, number);
        if let Some(group) = &mut self.groups[number] {
            group.replace(member, new);
        }
        self.place_group(number);
        Ok(Ok(Some(Shift { group: number, member, to: new })))
    }

    // Whether each unit of a lost member can be had from the others.
    fn can_rebuild(&self, group: &Group, member: u8) -> bool {
        match group.class {
            Class::Parity => group.others(group.unit(member, 0)).all(|unit| self.drives.is_here(&unit)),
            Class::Mirrored => (0..group.units()).filter_map(|offset| group.twin(member, offset)).all(|unit| self.drives.is_here(&unit)),
        }
    }

    fn first_gone(&self, number: usize, group: &Group) -> u16 {
        let first = 128 * number as u16;
        let mut slots = first..first + u16::from(group.size);
        slots.find(|slot| self.header(*slot).is_err()).unwrap_or(first)
    }

    // Onto an extent that was wiped, and isn't the group's yet.
    fn rebuild_extent(&mut self, group: &Group, member: u8, to: Member) {
        for offset in 0..group.units() {
            let unit = Unit { drive: to.drive, offset, extent: to.extent };
            match group.class {
                Class::Parity => group.others(group.unit(member, offset)).for_each(|other| self.drives.xor(other, unit)),
                Class::Mirrored => group.twin(member, offset).into_iter().for_each(|twin| self.drives.xor(twin, unit)),
            }
        }
    }
}
