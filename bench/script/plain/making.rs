//! Groups made and unmade, drives added and lost.

use crate::array::{Array, Content, Done, Kept, Refusal};
use crate::drives::Member;
use crate::groups::{Class, Group, Place};
use crate::stop::{Stop, reserve};

impl Array {
    pub fn make(&mut self, class: Class, members: &[Member]) -> Result<Done<usize>, Stop> {
        let number = match self.makeable(members) {
            Ok(number) => number,
            Err(refusal) => return Ok(Err(refusal)),
        };
        self.widen(number)?;
        let mut all = [Member::default(); 8];
        all[..members.len()].copy_from_slice(members);
        let group = Group::new(class, self.shape.segments, members.len(), all);
        for member in members {
            self.drives.wipe(*member, usize::from(group.units()))?;
            self.own(*member, number);
        }
        self.groups[number] = Some(group);
        match class {
            Class::Mirrored => self.mirrored.insert(number),
            Class::Parity => self.live.begin(number, group.size),
        }
        self.place_group(number);
        self.open_group(number);
        Ok(Ok(number))
    }

    // The number of the next group, where nothing speaks against its members.
    fn makeable(&self, members: &[Member]) -> Done<usize> {
        let drives = &self.drives.all;
        if members.iter().any(|member| usize::from(member.drive) >= drives.len() || member.extent >= self.shape.extents) {
            return Err(Refusal::Number(18));
        }
        if (1..members.len()).any(|at| members[..at].iter().any(|other| other.drive == members[at].drive)) {
            return Err(Refusal::Number(13));
        }
        if members.iter().any(|member| drives[usize::from(member.drive)].owned.has(usize::from(member.extent))) {
            return Err(Refusal::Number(12));
        }
        if let Some(member) = members.iter().find(|member| drives[usize::from(member.drive)].is_lost) {
            return Err(Refusal::Lost(member.drive));
        }
        let number = self.groups.iter().position(Option::is_none).unwrap_or(self.groups.len());
        if number < 512 { Ok(number) } else { Err(Refusal::Number(17)) }
    }

    // Tables for a group of this number.
    fn widen(&mut self, number: usize) -> Result<(), Stop> {
        if number == self.groups.len() {
            reserve(&mut self.groups, 1)?;
            reserve(&mut self.places, 128)?;
            reserve(&mut self.contents, 128)?;
            self.groups.push(None);
            self.places.resize(128 * (number + 1), Place::Nowhere);
            self.contents.resize(128 * (number + 1), Content { block: 0, key: 0, kind: 0 });
        }
        Ok(())
    }

    pub fn own(&mut self, member: Member, group: usize) {
        let drive = &mut self.drives.all[usize::from(member.drive)];
        drive.owned.insert(usize::from(member.extent));
        drive.groups.insert(group);
        drive.load += 1;
    }

    pub fn disown(&mut self, member: Member, group: usize) {
        let drive = &mut self.drives.all[usize::from(member.drive)];
        drive.owned.remove(usize::from(member.extent));
        drive.groups.remove(group);
        drive.load -= 1;
    }

    /// Notes where a group's slots lie.
    pub fn place_group(&mut self, number: usize) {
        if let Some(group) = &self.groups[number] {
            let places = &mut self.places[128 * number..];
            for index in 0..group.size {
                places[usize::from(index)] = group.place(index);
            }
        }
    }

    // Slots that were kept since a group of this number was unmade are free again.
    fn open_group(&mut self, number: usize) {
        for slot in 128 * number..128 * number + 128 {
            if self.kept[slot] == Kept::Shut {
                self.release(slot as u16);
            }
        }
        self.open.insert(number);
    }

    /// A worker that holds all slots of a group gives them back for the group's extents.
    pub fn unmake(&mut self, worker: u8, number: usize) -> Done<()> {
        let group = *self.group(number).ok_or(Refusal::Number(2))?;
        let slots = 128 * number..128 * number + usize::from(group.size);
        if let Some(slot) = slots.clone().find(|slot| self.kept[*slot] != Kept::Claimed(worker)) {
            return Err(Refusal::Held(slot as u16));
        }
        self.kept[slots.clone()].fill(Kept::Shut);
        self.places[slots].fill(Place::Nowhere);
        for member in group.members() {
            self.disown(*member, number);
        }
        match group.class {
            Class::Mirrored => self.mirrored.remove(number),
            Class::Parity => self.live.end(number),
        }
        self.groups[number] = None;
        Ok(())
    }

    pub fn add(&mut self) -> Done<u8> {
        let number = self.drives.all.len();
        if number == 16 {
            return Err(Refusal::Number(17));
        }
        self.drives.add();
        Ok(number as u8)
    }

    /// A drive is lost, or was already.
    pub fn lose(&mut self, drive: u8) -> Done<()> {
        let drive = self.drives.all.get_mut(usize::from(drive)).ok_or(Refusal::Number(18))?;
        drive.is_lost = true;
        Ok(())
    }
}
