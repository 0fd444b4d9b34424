//! The storm in plain Rust: the same array, words, workers and rounds, without a proof.
use std::collections::BTreeMap;
use std::io::BufRead;
use std::sync::Mutex;
use std::sync::atomic::{AtomicU64, Ordering::SeqCst};

const STORMS: usize = 20;
const ROUNDS: u32 = 1_000;
const BLOCKS: u32 = 16;
const DRIVES: usize = 4;
const EXTENTS: usize = 8;
const SEGMENTS: usize = 8;
const HEADER: usize = 32;
const SLOTS: usize = 128;
const ALL_SLOTS: usize = 65_536;
const LOW: usize = 44;
const SPENT: u64 = 1 << 63;

#[derive(Clone, Copy, PartialEq, Eq)]
struct Record {
    block: u32,
    version: u32,
    hop: u16,
    place: u16,
}

impl Record {
    fn key(self) -> u64 {
        u64::from(self.version) << 32 | u64::from(self.hop) << 16 | u64::from(self.place)
    }

    fn of_key(block: u32, key: u64) -> Option<Record> {
        let version = (key >> 32) as u32;
        (version > 0).then_some(Record { block, version, hop: (key >> 16) as u16, place: key as u16 })
    }

    fn header(self) -> [u8; HEADER] {
        let mut header = [0; HEADER];
        header[..4].copy_from_slice(b"RBH1");
        header[4..8].copy_from_slice(&self.block.to_be_bytes());
        header[8..16].copy_from_slice(&self.key().to_be_bytes());
        header
    }

    fn of_header(header: &[u8]) -> Option<Record> {
        if &header[..4] != b"RBH1" || header[16..].iter().any(|byte| *byte != 0) {
            return None;
        }
        let block = u32::from_be_bytes(header[4..8].try_into().unwrap());
        Record::of_key(block, u64::from_be_bytes(header[8..16].try_into().unwrap()))
    }
}

enum Refusal {
    NoGroup,
    WrongClass,
    InUse,
    NoTicket,
    Outrun,
    VersionSpent,
    HopsSpent,
    Unwritten,
    Gone,
    Ahead,
}

enum Fault {
    NoRoom,
    Core(Refusal),
}

struct Drive {
    bytes: Vec<u8>,
    lost: bool,
}

impl Drive {
    fn read_unit(&self, at: usize, unit: &mut [u8]) -> bool {
        if !self.lost {
            unit.copy_from_slice(&self.bytes[at * unit.len()..][..unit.len()]);
        }
        !self.lost
    }

    fn write_unit(&mut self, at: usize, unit: &[u8]) -> bool {
        if !self.lost {
            self.bytes[at * unit.len()..][..unit.len()].copy_from_slice(unit);
        }
        !self.lost
    }
}

#[derive(Clone, Copy, PartialEq, Eq)]
enum Class {
    Mirrored,
    Parity,
}

// A unit: its drive, and its number there.
type Home = (usize, usize);

struct Group {
    class: Class,
    members: [(usize, usize); 3],
    slots: usize,
    live: usize,
}

impl Group {
    fn new(class: Class, members: [(usize, usize); 3]) -> Group {
        let slots = match class {
            Class::Mirrored => members.len() * SEGMENTS / 2 * 2,
            Class::Parity => 2 * SEGMENTS * (members.len() - 1),
        };
        Group { class, members, slots, live: 0 }
    }

    fn home(&self, member: usize, offset: usize) -> Home {
        let (drive, extent) = self.members[member];
        (drive, extent * 2 * SEGMENTS + offset)
    }

    // Both copies of a mirrored unit, or a unit of a stripe and its parity.
    fn homes(&self, index: usize) -> (Home, Home) {
        let count = self.members.len();
        match self.class {
            Class::Mirrored => {
                let at = |position: usize| self.home(position % count, 2 * (position / count) + index % 2);
                (at(index / 2 * 2), at(index / 2 * 2 + 1))
            }
            Class::Parity => {
                let units = 2 * (count - 1);
                let (stripe, data) = (index / units, index % units / 2);
                let parity = count - 1 - stripe % count;
                let member = if data < parity { data } else { data + 1 };
                let offset = 2 * stripe + index % 2;
                (self.home(member, offset), self.home(parity, offset))
            }
        }
    }
}

#[derive(Clone, Copy, PartialEq, Eq)]
enum Kept {
    Free,
    Pending,
    Moving(Record),
    Newest(u32),
}

#[derive(Clone, Copy)]
struct Claim {
    slot: u16,
    generation: u64,
}

#[derive(Clone, Copy)]
struct Place {
    kept: Kept,
    claim: Option<Claim>,
}

struct Reading {
    record: Record,
    payload: Vec<u8>,
}

fn xor(into: &mut [u8], from: &[u8]) {
    for (one, other) in into.iter_mut().zip(from) {
        *one ^= other;
    }
}

struct Array {
    drives: Vec<Drive>,
    groups: Vec<Group>,
    places: Vec<Place>,
    keys: Vec<u64>,
    log: Vec<Record>,
    payload: usize,
    unit: Vec<u8>,
    scratch: Vec<u8>,
}

impl Array {
    fn new(payload: usize) -> Array {
        let unit = HEADER + payload;
        let drive = || Drive { bytes: vec![0; EXTENTS * 2 * SEGMENTS * unit], lost: false };
        let groups = vec![
            Group::new(Class::Mirrored, [(0, 0), (1, 0), (2, 0)]),
            Group::new(Class::Mirrored, [(1, 1), (2, 1), (3, 1)]),
            Group::new(Class::Parity, [(0, 2), (1, 2), (3, 2)]),
            Group::new(Class::Parity, [(0, 3), (2, 3), (3, 3)]),
        ];
        Array {
            drives: (0..DRIVES).map(|_| drive()).collect(),
            places: vec![Place { kept: Kept::Free, claim: None }; groups.len() * SLOTS],
            groups,
            keys: vec![0; BLOCKS as usize],
            log: Vec::new(),
            payload,
            unit: vec![0; unit],
            scratch: vec![0; 2 * unit],
        }
    }

    fn newest(&self, block: u32) -> Option<Record> {
        Record::of_key(block, self.keys[block as usize])
    }

    fn class_of(&self, slot: u16) -> Option<Class> {
        let group = self.groups.get(slot as usize / SLOTS)?;
        (slot as usize % SLOTS < group.slots).then_some(group.class)
    }

    fn homes(&self, slot: u16) -> (Class, Home, Home) {
        let group = &self.groups[slot as usize / SLOTS];
        let (one, other) = group.homes(slot as usize % SLOTS);
        (group.class, one, other)
    }

    // Reads a slot's unit into the buffer.
    fn load(&mut self, slot: u16) -> Result<(), Refusal> {
        let (class, one, other) = self.homes(slot);
        if self.drives[one.0].read_unit(one.1, &mut self.unit) {
            return Ok(());
        }
        if class == Class::Mirrored {
            let there = self.drives[other.0].read_unit(other.1, &mut self.unit);
            return if there { Ok(()) } else { Err(Refusal::Gone) };
        }
        self.unit.fill(0);
        let size = self.unit.len();
        let offset = one.1 % (2 * SEGMENTS);
        for (drive, extent) in self.groups[slot as usize / SLOTS].members {
            if drive == one.0 {
                continue;
            }
            let part = &mut self.scratch[..size];
            if !self.drives[drive].read_unit(extent * 2 * SEGMENTS + offset, part) {
                return Err(Refusal::Gone);
            }
            xor(&mut self.unit, part);
        }
        Ok(())
    }

    // Writes the buffer as a slot's unit. No drive of a storm is lost, so the ways that are left then are not here.
    fn store(&mut self, slot: u16) -> Result<(), Refusal> {
        let (class, one, other) = self.homes(slot);
        if class == Class::Mirrored {
            let first = self.drives[one.0].write_unit(one.1, &self.unit);
            let second = self.drives[other.0].write_unit(other.1, &self.unit);
            return if first || second { Ok(()) } else { Err(Refusal::Gone) };
        }
        let (old, sum) = self.scratch.split_at_mut(self.unit.len());
        if !self.drives[one.0].read_unit(one.1, old) || !self.drives[other.0].read_unit(other.1, sum) {
            return Err(Refusal::Gone);
        }
        xor(sum, old);
        xor(sum, &self.unit);
        self.drives[one.0].write_unit(one.1, &self.unit);
        self.drives[other.0].write_unit(other.1, sum);
        Ok(())
    }

    fn wait_in(&mut self, claim: Claim, kept: Kept) -> u16 {
        self.places[claim.slot as usize] = Place { kept, claim: Some(claim) };
        claim.slot
    }

    fn fill(&mut self, claim: Claim, payload: &[u8]) -> Result<u16, (Refusal, Claim)> {
        match self.class_of(claim.slot) {
            None => return Err((Refusal::NoGroup, claim)),
            Some(Class::Parity) => return Err((Refusal::WrongClass, claim)),
            Some(Class::Mirrored) => {}
        }
        if self.places[claim.slot as usize].kept != Kept::Free {
            return Err((Refusal::InUse, claim));
        }
        self.unit[..HEADER].fill(0);
        self.unit[HEADER..].copy_from_slice(payload);
        match self.store(claim.slot) {
            Ok(()) => Ok(self.wait_in(claim, Kept::Pending)),
            Err(refusal) => Err((refusal, claim)),
        }
    }

    fn source(&self, slot: u16, block: u32) -> Result<Record, Refusal> {
        if self.class_of(slot).is_none() {
            return Err(Refusal::NoGroup);
        }
        if self.places[slot as usize].kept != Kept::Free {
            return Err(Refusal::InUse);
        }
        let newest = self.newest(block).ok_or(Refusal::Unwritten)?;
        if newest.hop == u16::MAX { Err(Refusal::HopsSpent) } else { Ok(newest) }
    }

    // Writes one slot's payload into another under a header.
    fn carry(&mut self, from: u16, to: u16, header: &[u8; HEADER]) -> Result<(), Refusal> {
        self.load(from)?;
        self.unit[..HEADER].copy_from_slice(header);
        self.store(to)
    }

    fn copy(&mut self, claim: Claim, block: u32) -> Result<u16, (Refusal, Claim)> {
        let carried = self.source(claim.slot, block).and_then(|source| {
            self.carry(source.place, claim.slot, &[0; HEADER])?;
            Ok(source)
        });
        match carried {
            Ok(source) => Ok(self.wait_in(claim, Kept::Moving(source))),
            Err(refusal) => Err((refusal, claim)),
        }
    }

    fn next_record(&self, slot: u16, block: u32) -> Result<Record, Refusal> {
        let newest = self.newest(block);
        match self.places[slot as usize].kept {
            Kept::Pending => match newest.map_or(0, |record| record.version) {
                u32::MAX => Err(Refusal::VersionSpent),
                version => Ok(Record { block, version: version + 1, hop: 0, place: slot }),
            },
            Kept::Moving(source) if source.block == block => {
                let newest = newest.ok_or(Refusal::NoTicket)?;
                if newest.key() >> 16 != source.key() >> 16 {
                    return Err(Refusal::Outrun);
                }
                Ok(Record { block, version: source.version, hop: source.hop + 1, place: slot })
            }
            _ => Err(Refusal::NoTicket),
        }
    }

    // The record, and the claim of the block's last place.
    fn commit(&mut self, slot: u16, block: u32) -> Result<(Record, Option<Claim>), Refusal> {
        let record = self.next_record(slot, block)?;
        self.carry(slot, slot, &record.header())?;
        self.log.push(record);
        let old = self.newest(block).and_then(|old| {
            let place = &mut self.places[old.place as usize];
            place.kept = Kept::Free;
            self.groups[old.place as usize / SLOTS].live -= 1;
            place.claim.take()
        });
        self.keys[block as usize] = record.key();
        self.places[slot as usize].kept = Kept::Newest(block);
        self.groups[slot as usize / SLOTS].live += 1;
        Ok((record, old))
    }

    fn discard(&mut self, slot: u16) -> Option<Claim> {
        let place = &mut self.places[slot as usize];
        match place.kept {
            Kept::Pending | Kept::Moving(_) => {
                place.kept = Kept::Free;
                place.claim.take()
            }
            _ => None,
        }
    }

    // The payload of a record, or where it is stale of its block's newest.
    fn read_or_learn(&mut self, asked: Record) -> Result<Reading, Refusal> {
        let newest = self.newest(asked.block).ok_or(Refusal::Ahead)?;
        if newest.key() < asked.key() {
            return Err(Refusal::Ahead);
        }
        self.load(asked.place)?;
        let mut told = asked;
        if Record::of_header(&self.unit[..HEADER]) != Some(asked) {
            self.load(newest.place)?;
            told = newest;
        }
        Ok(Reading { record: told, payload: self.unit[HEADER..].to_vec() })
    }

    fn block_at(&self, slot: usize) -> Option<u32> {
        match self.places[slot].kept {
            Kept::Newest(block) => Some(block),
            _ => None,
        }
    }
}

// The array, the blocks of mirrored groups by the time of their last write, and where the log goes on.
struct Book {
    array: Array,
    clock: u64,
    written: Vec<u64>,
    mirrored: BTreeMap<u64, u32>,
    end: Option<(usize, usize)>,
}

struct Plan {
    block: u32,
    slots: Vec<u16>,
    appends: bool,
}

impl Book {
    fn new(payload: usize) -> Book {
        Book {
            array: Array::new(payload),
            clock: u64::from(BLOCKS),
            written: (0..u64::from(BLOCKS)).collect(),
            mirrored: BTreeMap::new(),
            end: None,
        }
    }

    fn commit(&mut self, slot: u16, block: u32) -> Result<(Record, Option<Claim>), Refusal> {
        let done = self.array.commit(slot, block)?;
        self.mirrored.remove(&self.written[block as usize]);
        if done.0.hop == 0 {
            self.written[block as usize] = self.clock;
            self.clock += 1;
        }
        if self.array.class_of(slot) == Some(Class::Mirrored) {
            self.mirrored.insert(self.written[block as usize], block);
        }
        Ok(done)
    }

    fn slots(&self, class: Class) -> impl Iterator<Item = (usize, &Group)> {
        self.array.groups.iter().enumerate().filter(move |(_, group)| group.class == class)
    }

    // Where the log goes on.
    fn append_slots(&self) -> Vec<u16> {
        let array = &self.array;
        let mut slots = Vec::new();
        let write = self.end.map(|end| end.0);
        if let Some((group, next)) = self.end {
            let behind = next..array.groups[group].slots;
            slots.extend(behind.map(|index| SLOTS * group + index).filter(|slot| array.block_at(*slot).is_none()).map(|slot| slot as u16));
        }
        for (number, group) in self.slots(Class::Parity) {
            if group.live == 0 && write != Some(number) {
                slots.extend((0..group.slots).map(|index| (SLOTS * number + index) as u16));
            }
        }
        slots
    }

    fn first_append(&self) -> Option<usize> {
        let array = &self.array;
        let write = self.end.map(|end| end.0);
        if let Some((group, next)) = self.end {
            let mut behind = (next..array.groups[group].slots).map(|index| SLOTS * group + index);
            if let Some(slot) = behind.find(|slot| array.block_at(*slot).is_none()) {
                return Some(slot);
            }
        }
        let mut fresh = self.slots(Class::Parity).filter(|(number, group)| group.live == 0 && write != Some(*number));
        fresh.next().map(|(number, _)| SLOTS * number)
    }

    fn lowest_live(&self, group: usize) -> Option<u32> {
        (0..self.array.groups[group].slots).find_map(|index| self.array.block_at(SLOTS * group + index))
    }

    // What a plug moves, and where to.
    fn plug(&self) -> Option<(u32, usize)> {
        let write = self.end.map(|end| end.0);
        let holed = self.slots(Class::Parity).filter(|(number, group)| Some(*number) != write && group.live > 0 && group.live < group.slots);
        let (target, most) = holed.min_by_key(|(_, group)| usize::MAX - group.live)?;
        let sources = self.slots(Class::Parity).filter(|(number, group)| *number != target && group.live > 0 && group.live <= most.live);
        let (source, _) = sources.min_by_key(|(_, group)| group.live)?;
        let hole = (0..most.slots).map(|index| SLOTS * target + index).find(|slot| self.array.block_at(*slot).is_none())?;
        Some((self.lowest_live(source)?, hole))
    }

    // What a clean moves, and where to, where there is no plug.
    fn clean(&self) -> Option<(u32, usize)> {
        let write = self.end.map(|end| end.0);
        let holed = self.slots(Class::Parity).filter(|(number, group)| Some(*number) != write && group.live > 0 && group.live < group.slots);
        let (cleaned, _) = holed.min_by_key(|(_, group)| group.live)?;
        let to = self.first_append()?;
        if to / SLOTS == cleaned { None } else { Some((self.lowest_live(cleaned)?, to)) }
    }

    fn plan(&self, mirrors: &[u16]) -> Option<Plan> {
        let free = mirrors.iter().filter(|slot| self.array.places[**slot as usize].kept == Kept::Free).count();
        if free < LOW {
            if let Some((_, block)) = self.mirrored.first_key_value() {
                return Some(Plan { block: *block, slots: self.append_slots(), appends: true });
            }
        }
        let ((block, to), appends) = match self.plug() {
            Some(plug) => (plug, false),
            None => (self.clean()?, true),
        };
        Some(Plan { block, slots: vec![to as u16], appends })
    }
}

struct Shared {
    slots: Vec<AtomicU64>,
    maps: [Vec<AtomicU64>; 2],
    book: Mutex<Book>,
    mirrors: Vec<u16>,
}

impl Shared {
    fn new(payload: usize) -> Shared {
        let words = |count: usize| (0..count).map(|_| AtomicU64::new(0)).collect();
        let book = Book::new(payload);
        let mirrors = book.slots(Class::Mirrored).flat_map(|(number, group)| (0..group.slots).map(move |index| (SLOTS * number + index) as u16)).collect();
        Shared { slots: words(ALL_SLOTS), maps: [words(BLOCKS as usize), words(BLOCKS as usize)], book: Mutex::new(book), mirrors }
    }

    fn claim(&self, slot: u16) -> Option<Claim> {
        let word = &self.slots[slot as usize];
        let seen = word.load(SeqCst);
        if seen % 2 == 1 || seen == SPENT {
            return None;
        }
        let generation = seen / 2 + 1;
        word.compare_exchange(seen, 2 * generation + 1, SeqCst, SeqCst).ok()?;
        Some(Claim { slot, generation })
    }

    fn claim_first(&self, slots: &[u16]) -> Result<Claim, Fault> {
        slots.iter().find_map(|slot| self.claim(*slot)).ok_or(Fault::NoRoom)
    }

    fn release(&self, claim: Claim) {
        self.slots[claim.slot as usize].store(2 * claim.generation, SeqCst);
    }

    fn take(&self, map: usize, record: Record) {
        self.maps[map][record.block as usize].fetch_max(record.key(), SeqCst);
    }

    fn waits(&self, told: Result<u16, (Refusal, Claim)>) -> Result<u16, Fault> {
        told.map_err(|(refusal, claim)| {
            self.release(claim);
            Fault::Core(refusal)
        })
    }

    fn commits(&self, number: usize, slot: u16, told: Result<(Record, Option<Claim>), Refusal>) -> Result<Record, Fault> {
        match told {
            Ok((record, old)) => {
                if let Some(claim) = old {
                    self.release(claim);
                }
                self.take(number % 2, record);
                Ok(record)
            }
            Err(refusal) => {
                let given = self.book.lock().unwrap().array.discard(slot);
                if let Some(claim) = given {
                    self.release(claim);
                }
                Err(Fault::Core(refusal))
            }
        }
    }

    fn write(&self, number: usize, block: u32, payload: &[u8]) -> Result<Record, Fault> {
        let claim = self.claim_first(&self.mirrors)?;
        let filled = self.book.lock().unwrap().array.fill(claim, payload);
        let slot = self.waits(filled)?;
        let done = self.book.lock().unwrap().commit(slot, block);
        self.commits(number, slot, done)
    }

    fn commit_moved(&self, slot: u16, plan: &Plan) -> Result<(Record, Option<Claim>), Refusal> {
        let mut book = self.book.lock().unwrap();
        let done = book.commit(slot, plan.block)?;
        if plan.appends {
            book.end = Some((slot as usize / SLOTS, slot as usize % SLOTS + 1));
        }
        Ok(done)
    }

    fn migrate(&self, number: usize) -> Result<Option<Record>, Fault> {
        let found = self.book.lock().unwrap().plan(&self.mirrors);
        let Some(plan) = found else {
            return Ok(None);
        };
        let claim = self.claim_first(&plan.slots)?;
        let copied = self.book.lock().unwrap().array.copy(claim, plan.block);
        let slot = self.waits(copied)?;
        let done = self.commit_moved(slot, &plan);
        match self.commits(number, slot, done) {
            Err(Fault::Core(Refusal::Outrun)) => Ok(None),
            told => told.map(Some),
        }
    }

    fn read(&self, map: usize, block: u32) -> Result<Option<Reading>, Fault> {
        let Some(found) = Record::of_key(block, self.maps[map][block as usize].load(SeqCst)) else {
            return Ok(None);
        };
        let told = self.book.lock().unwrap().array.read_or_learn(found);
        let reading = told.map_err(Fault::Core)?;
        if reading.record != found {
            self.take(map, reading.record);
        }
        Ok(Some(reading))
    }

    fn round(&self, number: usize, round: u32, payload: &mut [u8]) {
        let block = (number as u32 + round % BLOCKS) % BLOCKS;
        payload[..4].copy_from_slice(&(number as u32).to_be_bytes());
        payload[4..8].copy_from_slice(&round.to_be_bytes());
        passed_over(self.write(number, block, payload));
        passed_over(self.migrate(number));
        if let Some(reading) = passed_over(self.read((number + 1) % 2, block)).flatten() {
            assert!(reading.payload.len() == payload.len());
        }
    }

    fn work(&self, number: usize, payload: usize) {
        let mut payload = vec![0; payload];
        for round in 0..ROUNDS {
            self.round(number, round, &mut payload);
        }
    }
}

// Goes on where no slot was free, or a record was ahead of the array.
fn passed_over<T>(told: Result<T, Fault>) -> Option<T> {
    match told {
        Ok(told) => Some(told),
        Err(Fault::NoRoom | Fault::Core(Refusal::Ahead)) => None,
        Err(Fault::Core(_)) => panic!("refused"),
    }
}

// Whether all that was taken is the array's map.
fn agrees(shared: Shared) -> bool {
    let mut map = BTreeMap::new();
    for words in shared.maps {
        for (block, word) in words.into_iter().enumerate() {
            let key = word.into_inner();
            if key > 0 {
                let kept = map.entry(block).or_insert(key);
                *kept = key.max(*kept);
            }
        }
    }
    let array = shared.book.into_inner().unwrap().array;
    assert!(array.payload > 0 && !array.log.is_empty());
    let keys = array.keys.iter().copied().enumerate().filter(|(_, key)| *key > 0);
    map.into_iter().eq(keys)
}

fn storm(workers: usize, payload: usize) -> bool {
    let shared = Shared::new(payload);
    std::thread::scope(|scope| {
        for number in 0..workers {
            let shared = &shared;
            scope.spawn(move || shared.work(number, payload));
        }
    });
    agrees(shared)
}

fn main() {
    for line in std::io::stdin().lock().lines() {
        let line = line.unwrap();
        let (workers, payload) = line.split_once(' ').unwrap();
        let (workers, payload) = (workers.parse().unwrap(), payload.parse().unwrap());
        let all = (0..STORMS).all(|_| storm(workers, payload));
        println!("{line} {}", if all { "agreed" } else { "differs" });
    }
}
