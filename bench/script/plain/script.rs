//! The commands of a script: each is read to its end, tested for its range and carried out.

use crate::answers::Answers;
use crate::array::{Array, Done, Refusal, Shape};
use crate::groups::Class;
use crate::maps::Maps;
use crate::moves::Shifted;
use crate::record::Record;
use crate::scan::{Fault, records};
use crate::steps::At;
use crate::stop::{Stop, Told, table};
use crate::tiers::Move;
use crate::words::{Words, verb};

pub struct Script {
    array: Array,
    maps: Maps,
    payload: Vec<u8>,
}

#[inline]
fn within(number: u32, least: u32, most: u32) -> Result<u32, Stop> {
    if (least..=most).contains(&number) { Ok(number) } else { Err(Stop::Range) }
}

#[inline]
fn worker(number: u32) -> Result<u8, Stop> {
    within(number, 0, 7).map(|worker| worker as u8)
}

#[inline]
fn slot(number: u32) -> Result<u16, Stop> {
    within(number, 0, 65_535).map(|slot| slot as u16)
}

#[inline]
fn map(number: u32) -> Result<usize, Stop> {
    within(number, 0, 3).map(|map| map as usize)
}

fn refuse(out: &mut Answers, refusal: Refusal) {
    match refusal {
        Refusal::Number(number) => out.word(b"refused ", number),
        Refusal::Outrun(newest) => out.recorded(b"refused 6 ", newest),
        Refusal::Gone(slot) => out.word(b"refused 10 ", slot),
        Refusal::Held(slot) => out.word(b"refused 11 ", slot),
        Refusal::Lost(drive) => out.word(b"refused 14 ", drive),
        Refusal::Ahead(Some(newest)) => out.recorded(b"refused 15 ", newest),
        Refusal::Ahead(None) => out.text(b"refused 15 none\n"),
    }
}

// A word and a number, or a refusal.
fn say<const N: usize, T: Into<u32>>(out: &mut Answers, word: &[u8; N], told: Done<T>) {
    match told {
        Ok(number) => out.word(word, number),
        Err(refusal) => refuse(out, refusal),
    }
}

fn say_record(out: &mut Answers, told: Done<Record>) {
    match told {
        Ok(record) => out.recorded(b"record ", record),
        Err(refusal) => refuse(out, refusal),
    }
}

fn say_move(out: &mut Answers, told: Move) {
    match told {
        Move::Moved(record) => out.recorded(b"record ", record),
        Move::Nothing => out.text(b"nothing\n"),
        Move::NoRoom => out.text(b"noroom\n"),
        Move::Refused(refusal) => refuse(out, refusal),
    }
}

fn say_shift(out: &mut Answers, told: Shifted) {
    match told {
        Ok(Some(shift)) => {
            out.text(b"moved ");
            out.number(shift.group as u32);
            out.text(b" ");
            out.number(shift.member as u32);
            out.text(b" ");
            out.number(shift.to.drive.into());
            out.word(b".", shift.to.extent);
        }
        Ok(None) => out.text(b"nothing\n"),
        Err(refusal) => refuse(out, refusal),
    }
}

fn say_fault(out: &mut Answers, fault: Fault) {
    match fault {
        Fault::Gone(slot) => out.word(b"scan fault 5 ", slot),
        Fault::Bad(slot) => out.word(b"scan fault 2 ", slot),
        Fault::Elsewhere(slot, told) => {
            out.text(b"scan fault 3 ");
            out.number(slot.into());
            out.word(b" ", told);
        }
    }
}

fn say_at(out: &mut Answers, version: u32, told: Done<At>) {
    match told {
        Ok(At::Data(payload)) => out.data(version, payload),
        Ok(At::Trimmed) => {
            out.text(b"trimmed ");
            out.number(version);
            out.text(b"\n");
        }
        Ok(At::Stale(None)) => out.text(b"stale none\n"),
        Ok(At::Stale(Some(header))) => {
            out.text(b"stale ");
            out.number(header.block);
            out.text(b" ");
            out.number(header.version);
            out.text(b" ");
            out.number(header.hop.into());
            out.word(b" ", header.place);
        }
        Err(refusal) => refuse(out, refusal),
    }
}

/// The first command of a script.
pub fn begin(words: &mut Words, out: &mut Answers) -> Result<Script, Stop> {
    if words.verb() != verb(b"array") {
        return Err(Stop::Form);
    }
    let (drives, extents, segments) = (words.number()?, words.number()?, words.number()?);
    let (payload, blocks) = (words.number()?, words.number()?);
    words.end()?;
    let shape = Shape {
        drives: within(drives, 3, 16)? as u8,
        extents: within(extents, 1, 512)? as u16,
        segments: within(segments, 1, 8)? as u8,
        payload: within(payload, 8, 65_536)? as usize,
        blocks: within(blocks, 1, 65_536)?,
    };
    if !shape.payload.is_multiple_of(8) {
        return Err(Stop::Range);
    }
    out.text(b"array\n");
    Ok(Script { array: Array::new(shape)?, maps: Maps::new(shape.blocks), payload: table(shape.payload, 0)? })
}

impl Script {
    /// Answers a line.
    pub fn answer(&mut self, words: &mut Words, out: &mut Answers) -> Told {
        const CLAIM: u64 = verb(b"claim");
        const FILL: u64 = verb(b"fill");
        const COMMIT: u64 = verb(b"commit");
        const RELEASE: u64 = verb(b"release");
        const READ: u64 = verb(b"read");
        const COPY: u64 = verb(b"copy");
        const AT: u64 = verb(b"at");
        const DISCARD: u64 = verb(b"discard");
        const WRITE: u64 = verb(b"write");
        const TRIM: u64 = verb(b"trim");
        const DEMOTE: u64 = verb(b"demote");
        const PLUG: u64 = verb(b"plug");
        const CLEAN: u64 = verb(b"clean");
        const TAKE: u64 = verb(b"take");
        match words.verb() {
            CLAIM => self.claim(words, out),
            FILL => self.fill(words, out),
            COMMIT => self.commit(words, out),
            RELEASE => self.release(words, out),
            READ => self.read(words, out),
            COPY => self.copy(words, out),
            AT => self.at(words, out),
            DISCARD => self.discard(words, out),
            WRITE => self.write(words, out),
            TRIM => self.trim(words, out),
            DEMOTE => self.moves(words, out, Array::demote),
            PLUG => self.moves(words, out, Array::plug),
            CLEAN => self.moves(words, out, Array::clean),
            TAKE => self.take(words, out),
            other => self.answer_rare(other, words, out),
        }
    }

    fn answer_rare(&mut self, verb_read: u64, words: &mut Words, out: &mut Answers) -> Told {
        const MERGE: u64 = verb(b"merge");
        const SAME: u64 = verb(b"same");
        const SHOW: u64 = verb(b"show");
        const MAP: u64 = verb(b"map");
        const LOG: u64 = verb(b"log");
        const SCAN: u64 = verb(b"scan");
        const RESTART: u64 = verb(b"restart");
        const MAKE: u64 = verb(b"make");
        const UNMAKE: u64 = verb(b"unmake");
        const ADD: u64 = verb(b"add");
        const LOSE: u64 = verb(b"lose");
        const BALANCE: u64 = verb(b"balance");
        const REBUILD: u64 = verb(b"rebuild");
        match verb_read {
            MERGE => self.merge(words, out),
            SAME => self.same(words, out),
            SHOW => self.show(words, out),
            MAP => self.map(words, out),
            LOG => self.log(words, out),
            SCAN => self.scan(words, out),
            RESTART => self.restart(words, out),
            MAKE => self.make(words, out),
            UNMAKE => self.unmake(words, out),
            ADD => self.add(words, out),
            LOSE => self.lose(words, out),
            BALANCE => self.balance(words, out),
            REBUILD => self.rebuild(words, out),
            _ => Err(Stop::Form),
        }
    }

    #[inline]
    fn block(&self, number: u32) -> Result<u32, Stop> {
        if number < self.maps.blocks { Ok(number) } else { Err(Stop::Range) }
    }

    fn claim(&mut self, words: &mut Words, out: &mut Answers) -> Told {
        let (w, s) = (words.digit()?, words.number()?);
        words.end()?;
        let (worker, slot) = (worker(w)?, slot(s)?);
        if self.array.claim(worker, slot) {
            out.word(b"claimed ", slot);
        } else {
            out.word(b"taken ", slot);
        }
        Ok(())
    }

    fn release(&mut self, words: &mut Words, out: &mut Answers) -> Told {
        let (w, s) = (words.digit()?, words.number()?);
        words.end()?;
        let (worker, slot) = (worker(w)?, slot(s)?);
        if self.array.holds(worker, slot) {
            self.array.release(slot);
            out.word(b"released ", slot);
        } else {
            out.word(b"notheld ", slot);
        }
        Ok(())
    }

    fn fill(&mut self, words: &mut Words, out: &mut Answers) -> Told {
        let (w, s) = (words.digit()?, words.number()?);
        words.payload(&mut self.payload)?;
        let (worker, slot) = (worker(w)?, slot(s)?);
        if self.array.holds(worker, slot) {
            say(out, b"filled ", self.array.fill(worker, slot, &self.payload).map(|()| slot));
        } else {
            out.word(b"notheld ", slot);
        }
        Ok(())
    }

    fn copy(&mut self, words: &mut Words, out: &mut Answers) -> Told {
        let (w, s, b) = (words.digit()?, words.number()?, words.number()?);
        words.end()?;
        let (worker, slot, block) = (worker(w)?, slot(s)?, self.block(b)?);
        if self.array.holds(worker, slot) {
            say(out, b"copied ", self.array.copy(worker, slot, block).map(|()| slot));
        } else {
            out.word(b"notheld ", slot);
        }
        Ok(())
    }

    fn commit(&mut self, words: &mut Words, out: &mut Answers) -> Told {
        let (w, s, b) = (words.digit()?, words.number()?, words.number()?);
        words.end()?;
        let (worker, slot, block) = (worker(w)?, slot(s)?, self.block(b)?);
        self.array.reserve()?;
        say_record(out, self.array.commit(worker, slot, block));
        Ok(())
    }

    fn discard(&mut self, words: &mut Words, out: &mut Answers) -> Told {
        let (w, s) = (words.digit()?, words.number()?);
        words.end()?;
        let (worker, slot) = (worker(w)?, slot(s)?);
        say(out, b"discarded ", self.array.discard(worker, slot).map(|()| slot));
        Ok(())
    }

    fn read(&mut self, words: &mut Words, out: &mut Answers) -> Told {
        let b = words.number()?;
        words.end()?;
        match self.array.read(self.block(b)?) {
            Ok(Some((version, payload))) => out.data(version, payload),
            Ok(None) => out.text(b"none\n"),
            Err(refusal) => refuse(out, refusal),
        }
        Ok(())
    }

    fn at(&mut self, words: &mut Words, out: &mut Answers) -> Told {
        let record = words.record()?;
        self.block(record.block)?;
        say_at(out, record.version, self.array.at(record));
        Ok(())
    }

    fn write(&mut self, words: &mut Words, out: &mut Answers) -> Told {
        let (w, b) = (words.digit()?, words.number()?);
        words.payload(&mut self.payload)?;
        worker(w)?;
        let block = self.block(b)?;
        self.array.reserve()?;
        say_move(out, self.array.write(block, &self.payload));
        Ok(())
    }

    fn trim(&mut self, words: &mut Words, out: &mut Answers) -> Told {
        let (w, b) = (words.digit()?, words.number()?);
        words.end()?;
        worker(w)?;
        let block = self.block(b)?;
        self.array.reserve()?;
        say_move(out, self.array.trim(block));
        Ok(())
    }

    // A demotion, a plug or a clean by some worker.
    fn moves(&mut self, words: &mut Words, out: &mut Answers, by: impl FnOnce(&mut Array) -> Move) -> Told {
        let w = words.digit()?;
        words.end()?;
        worker(w)?;
        self.array.reserve()?;
        say_move(out, by(&mut self.array));
        Ok(())
    }

    fn take(&mut self, words: &mut Words, out: &mut Answers) -> Told {
        let m = words.digit()?;
        let record = words.record()?;
        let map = map(m)?;
        self.block(record.block)?;
        out.recorded(b"took ", self.maps.take(map, record)?);
        Ok(())
    }

    fn merge(&mut self, words: &mut Words, out: &mut Answers) -> Told {
        let (m, n) = (words.digit()?, words.digit()?);
        words.end()?;
        self.maps.merge(map(m)?, map(n)?)?;
        out.text(b"merged\n");
        Ok(())
    }

    fn same(&mut self, words: &mut Words, out: &mut Answers) -> Told {
        let (m, n) = (words.digit()?, words.digit()?);
        words.end()?;
        match self.maps.first_difference(map(m)?, map(n)?) {
            None => out.text(b"same\n"),
            Some(block) => out.word(b"differs ", block as u32),
        }
        Ok(())
    }

    fn show(&mut self, words: &mut Words, out: &mut Answers) -> Told {
        let m = words.digit()?;
        words.end()?;
        let map = map(m)?;
        out.list(b"map ", self.maps.count(map), self.maps.records(map))
    }

    fn map(&mut self, words: &mut Words, out: &mut Answers) -> Told {
        words.end()?;
        out.list(b"map ", self.array.written, records(&self.array.keys))
    }

    fn log(&mut self, words: &mut Words, out: &mut Answers) -> Told {
        words.end()?;
        out.list(b"log ", self.array.log.len(), self.array.log.iter().copied())
    }

    fn scan(&mut self, words: &mut Words, out: &mut Answers) -> Told {
        words.end()?;
        match self.array.scan()? {
            Ok(count) => out.list(b"scan ", count, records(&self.array.found)),
            Err(fault) => {
                say_fault(out, fault);
                Ok(())
            }
        }
    }

    fn restart(&mut self, words: &mut Words, out: &mut Answers) -> Told {
        words.end()?;
        match self.array.scan()? {
            Ok(count) => {
                self.array.begin(count)?;
                out.word(b"restarted ", count as u32);
            }
            Err(fault) => say_fault(out, fault),
        }
        Ok(())
    }

    fn make(&mut self, words: &mut Words, out: &mut Answers) -> Told {
        let class = if words.is_mirrored()? { Class::Mirrored } else { Class::Parity };
        let (count, members) = words.members()?;
        say(out, b"made ", self.array.make(class, &members[..count])?.map(|group| group as u32));
        Ok(())
    }

    fn unmake(&mut self, words: &mut Words, out: &mut Answers) -> Told {
        let (w, g) = (words.digit()?, words.number()?);
        words.end()?;
        let (worker, group) = (worker(w)?, within(g, 0, 511)?);
        say(out, b"unmade ", self.array.unmake(worker, group as usize).map(|()| group));
        Ok(())
    }

    fn add(&mut self, words: &mut Words, out: &mut Answers) -> Told {
        words.end()?;
        say(out, b"added ", self.array.add());
        Ok(())
    }

    fn lose(&mut self, words: &mut Words, out: &mut Answers) -> Told {
        let d = words.number()?;
        words.end()?;
        let drive = within(d, 0, 15)? as u8;
        say(out, b"lost ", self.array.lose(drive).map(|()| drive));
        Ok(())
    }

    fn balance(&mut self, words: &mut Words, out: &mut Answers) -> Told {
        words.end()?;
        say_shift(out, self.array.balance()?);
        Ok(())
    }

    fn rebuild(&mut self, words: &mut Words, out: &mut Answers) -> Told {
        let d = words.number()?;
        words.end()?;
        let drive = within(d, 0, 15)?;
        say_shift(out, self.array.rebuild(drive as usize)?);
        Ok(())
    }
}
