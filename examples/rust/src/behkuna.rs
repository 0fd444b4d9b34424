//! Calls of the library behind Rust's types. `crates/raid_c/include/behkuna.h` says what each does.

/// A record of a commit.
#[repr(C)]
#[derive(Clone, Copy, Debug, Default, PartialEq, Eq)]
pub struct Record {
    pub block: u32,
    pub version: u32,
    pub hop: u16,
    pub place: u16,
}

/// A unit's header: its kind (0 blank, 1 data, 2 trim) and record.
#[repr(C)]
#[derive(Clone, Copy, Debug, Default, PartialEq, Eq)]
pub struct Header {
    pub kind: u32,
    pub record: Record,
}

#[repr(C)]
#[derive(Clone, Copy, Debug, Default, PartialEq, Eq)]
pub struct Unit {
    pub member: u16,
    pub offset: u16,
}

#[repr(C)]
#[derive(Clone, Copy, Debug, Default, PartialEq, Eq)]
pub struct Copies {
    pub first: Unit,
    pub second: Unit,
}

#[repr(C)]
#[derive(Clone, Copy, Debug, Default, PartialEq, Eq)]
pub struct Stripe {
    pub stripe: u16,
    pub member: u16,
    pub offset: u16,
    pub parity: u16,
}

/// A status above 0.
#[derive(Clone, Copy, Debug, PartialEq, Eq)]
pub struct Status(pub u32);

pub const FAULT: u32 = 2;
pub const ROOM: u32 = 3;
pub const DIFFERS: u32 = 7;
pub const ABSENT: u32 = 9;

/// The version of the calls that this file declares.
pub const API_VERSION: u32 = 1;

extern "C" {
    fn behkuna_api_version() -> u32;
    fn behkuna_record_encode(record: &Record, bytes: &mut [u8; 12]) -> u32;
    fn behkuna_record_decode(bytes: *const u8, bytes_len: usize, record: &mut Record) -> u32;
    fn behkuna_record_key(record: &Record) -> u64;
    fn behkuna_record_of_key(block: u32, key: u64, record: &mut Record) -> u32;
    fn behkuna_header_decode(bytes: &[u8; 32], header: &mut Header) -> u32;
    fn behkuna_header_encode(header: &Header, bytes: &mut [u8; 32]) -> u32;
    fn behkuna_join(records: *const u8, records_len: usize, joined: *mut u8, joined_len: usize, count: &mut usize) -> u32;
    fn behkuna_agree(ours: *const u8, ours_len: usize, theirs: *const u8, theirs_len: usize, block: &mut u32) -> u32;
    fn behkuna_newest(records: *const u8, records_len: usize, block: u32, record: &mut Record) -> u32;
    fn behkuna_slot_count(group_class: u32, members: u32, segments: u32, slots: &mut u16) -> u32;
    fn behkuna_two_copies(members: u32, segments: u32, index: u32, copies: &mut Copies) -> u32;
    fn behkuna_one_stripe(members: u32, segments: u32, index: u32, stripe: &mut Stripe) -> u32;
    fn behkuna_xor_into(into: *mut u8, into_len: usize, from: *const u8, from_len: usize) -> u32;
    fn behkuna_run_script(script: *const u8, script_len: usize, answers: *mut u8, answers_len: usize, count: &mut usize) -> u32;
}

/// Whether the archive has the calls as they are declared here.
pub fn has_this_version() -> bool {
    unsafe { behkuna_api_version() == API_VERSION }
}

fn if_done<T>(status: u32, value: T) -> Result<T, Status> {
    if status == 0 {
        Ok(value)
    } else {
        Err(Status(status))
    }
}

impl Record {
    pub fn encode(&self) -> Result<[u8; 12], Status> {
        let mut bytes = [0; 12];
        let status = unsafe { behkuna_record_encode(self, &mut bytes) };
        if_done(status, bytes)
    }

    pub fn decode(bytes: &[u8]) -> Result<Record, Status> {
        let mut record = Record::default();
        let status = unsafe { behkuna_record_decode(bytes.as_ptr(), bytes.len(), &mut record) };
        if_done(status, record)
    }

    pub fn key(&self) -> u64 {
        unsafe { behkuna_record_key(self) }
    }

    pub fn of_key(block: u32, key: u64) -> Result<Record, Status> {
        let mut record = Record::default();
        let status = unsafe { behkuna_record_of_key(block, key, &mut record) };
        if_done(status, record)
    }
}

impl Header {
    pub fn decode(bytes: &[u8; 32]) -> Result<Header, Status> {
        let mut header = Header::default();
        let status = unsafe { behkuna_header_decode(bytes, &mut header) };
        if_done(status, header)
    }

    pub fn encode(&self) -> Result<[u8; 32], Status> {
        let mut bytes = [0; 32];
        let status = unsafe { behkuna_header_encode(self, &mut bytes) };
        if_done(status, bytes)
    }
}

/// The newest record of each block of a list, in the blocks' order. A join is never longer than its list.
pub fn join(records: &[u8]) -> Result<Vec<u8>, Status> {
    let mut joined = vec![0; records.len()];
    let mut count = 0;
    let status = unsafe { behkuna_join(records.as_ptr(), records.len(), joined.as_mut_ptr(), joined.len(), &mut count) };
    joined.truncate(count);
    if_done(status, joined)
}

/// The lowest block of which the maps of two lists differ, if one does.
pub fn difference(ours: &[u8], theirs: &[u8]) -> Result<Option<u32>, Status> {
    let mut block = 0;
    match unsafe { behkuna_agree(ours.as_ptr(), ours.len(), theirs.as_ptr(), theirs.len(), &mut block) } {
        DIFFERS => Ok(Some(block)),
        status => if_done(status, None),
    }
}

/// The newest record of a block in a list, if one has the block.
pub fn newest(records: &[u8], block: u32) -> Result<Option<Record>, Status> {
    let mut record = Record::default();
    match unsafe { behkuna_newest(records.as_ptr(), records.len(), block, &mut record) } {
        ABSENT => Ok(None),
        status => if_done(status, Some(record)),
    }
}

/// How many slots a group has, mirrored or with parity.
pub fn slot_count(has_parity: bool, members: u32, segments: u32) -> Result<u16, Status> {
    let mut slots = 0;
    let status = unsafe { behkuna_slot_count(u32::from(has_parity), members, segments, &mut slots) };
    if_done(status, slots)
}

pub fn two_copies(members: u32, segments: u32, index: u32) -> Result<Copies, Status> {
    let mut copies = Copies::default();
    let status = unsafe { behkuna_two_copies(members, segments, index, &mut copies) };
    if_done(status, copies)
}

pub fn one_stripe(members: u32, segments: u32, index: u32) -> Result<Stripe, Status> {
    let mut stripe = Stripe::default();
    let status = unsafe { behkuna_one_stripe(members, segments, index, &mut stripe) };
    if_done(status, stripe)
}

pub fn xor_into(into: &mut [u8], from: &[u8]) -> Result<(), Status> {
    let status = unsafe { behkuna_xor_into(into.as_mut_ptr(), into.len(), from.as_ptr(), from.len()) };
    if_done(status, ())
}

/// A script's answers, and whether it ended in a fault.
pub fn run_script(script: &[u8]) -> Result<(Vec<u8>, bool), Status> {
    let mut answers = Vec::new();
    loop {
        let mut count = 0;
        let status = unsafe {
            behkuna_run_script(script.as_ptr(), script.len(), answers.as_mut_ptr(), answers.len(), &mut count)
        };
        if status != ROOM {
            answers.truncate(count);
            return match status {
                FAULT => Ok((answers, true)),
                status => if_done(status, (answers, false)),
            };
        }
        answers.resize(count, 0);
    }
}
