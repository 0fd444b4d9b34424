//! Records of where a block lies, and the headers that tell them.

use crate::hex;

/// Where a block lies: the place is a slot's number.
#[derive(Clone, Copy, PartialEq, Eq)]
pub struct Record {
    pub block: u32,
    pub version: u32,
    pub hop: u16,
    pub place: u16,
}

/// A mark and a record as one number, the highest byte first; the mark of a trim differs in one bit. A blank one is 0.
pub type Header = u128;

const TAG: Header = 0x5242_4832 << 96;

/// The bit of the mark that makes a header one of a trim.
pub const TRIM: Header = 1 << 96;

impl Record {
    /// Version, hop and place as one number; 0 is the key of no record.
    #[inline]
    pub fn key(self) -> u64 {
        u64::from(self.version) << 32 | u64::from(self.hop) << 16 | u64::from(self.place)
    }

    #[inline]
    pub fn of_key(block: u32, key: u64) -> Option<Record> {
        let version = (key >> 32) as u32;
        (version > 0).then_some(Record { block, version, hop: (key >> 16) as u16, place: key as u16 })
    }

    #[inline]
    fn number(self) -> u128 {
        u128::from(self.block) << 64 | u128::from(self.key())
    }

    fn of_number(number: u128) -> Option<Record> {
        Record::of_key((number >> 64) as u32, number as u64)
    }

    /// A record of 24 digits; none where one is no digit, or the version is 0.
    pub fn of_digits(digits: &[u8; 24]) -> Option<Record> {
        Record::of_number(hex::decode_record(digits)?)
    }

    /// The record's digits, and eight more behind them.
    #[inline]
    pub fn digits(self) -> [u8; 32] {
        hex::encode_number(self.number() << 32)
    }

    #[inline]
    pub fn header(self) -> Header {
        TAG | self.number()
    }

    /// The record that a header tells; none where it is blank or no header.
    #[inline]
    pub fn of_header(header: Header) -> Option<Record> {
        if (header | TRIM) >> 96 == (TAG | TRIM) >> 96 { Record::of_number(header) } else { None }
    }
}

/// What a newest place of no block has as its key's place.
#[inline]
pub fn place_of(key: u64) -> Option<u16> {
    (key > 0).then_some(key as u16)
}
