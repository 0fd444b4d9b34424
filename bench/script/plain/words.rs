//! The words of a line, read where it lies. Behind the last byte that was read stand a line feed and more bytes, so no test is needed for
//! where the bytes end but that of the line's last byte.

use crate::decimal;
use crate::drives::Member;
use crate::hex;
use crate::record::Record;
use crate::stop::{Stop, Told};

pub struct Words<'a> {
    bytes: &'a [u8],
    at: usize,
    limit: usize,
}

/// A verb as the number that its bytes make.
pub const fn verb(name: &[u8]) -> u64 {
    let (mut sum, mut at) = (0, 0);
    while at < name.len() {
        sum |= (name[at] as u64) << (8 * at);
        at += 1;
    }
    sum
}

impl<'a> Words<'a> {
    /// The line at this place; what was read ends before `limit`.
    pub fn new(bytes: &'a [u8], at: usize, limit: usize) -> Words<'a> {
        Words { bytes, at, limit }
    }

    pub fn at(&self) -> usize {
        self.at
    }

    #[inline]
    fn eight(&self, at: usize) -> u64 {
        u64::from_le_bytes(self.bytes[at..at + 8].try_into().unwrap())
    }

    /// The word up to the first byte below `!`; one of eight bytes and more is no verb.
    #[inline]
    pub fn verb(&mut self) -> u64 {
        let eight = self.eight(self.at);
        let below = eight.wrapping_sub(0x2121_2121_2121_2121) & !eight & 0x8080_8080_8080_8080;
        let lowest = below & below.wrapping_neg();
        self.at += (below.trailing_zeros() / 8) as usize;
        eight & (lowest >> 7).wrapping_sub(1)
    }

    /// A number; one that is too large for any word is told as `u32::MAX`, which is out of every range.
    #[inline]
    pub fn number(&mut self) -> Result<u32, Stop> {
        self.number_behind(b' ')
    }

    /// A number that mostly has one digit, as workers' and maps'.
    #[inline]
    pub fn digit(&mut self) -> Result<u32, Stop> {
        let [mark, digit, behind] = [0, 1, 2].map(|at| (self.eight(self.at) >> (8 * at)) as u8);
        if mark == b' ' && digit.is_ascii_digit() && !behind.is_ascii_digit() {
            self.at += 2;
            return Ok(u32::from(digit - b'0'));
        }
        self.number()
    }

    fn number_behind(&mut self, mark: u8) -> Result<u32, Stop> {
        let eight = self.eight(self.at);
        if eight as u8 != mark {
            return Err(Stop::Form);
        }
        // Seven digits are there; the eighth byte is 0, which is none.
        match decimal::short(eight >> 8) {
            Some((number, count)) => {
                self.at += 1 + count;
                Ok(number)
            }
            None => self.long_number(),
        }
    }

    #[cold]
    fn long_number(&mut self) -> Result<u32, Stop> {
        let (number, count) = decimal::long(&self.bytes[self.at + 1..]).ok_or(Stop::Form)?;
        self.at += 1 + count;
        Ok(u32::try_from(number).unwrap_or(u32::MAX))
    }

    /// The line's last byte.
    #[inline]
    pub fn end(&mut self) -> Told {
        if self.at >= self.limit || self.bytes[self.at] != b'\n' {
            return Err(Stop::Form);
        }
        self.at += 1;
        Ok(())
    }

    fn space(&mut self) -> Told {
        if self.bytes[self.at] != b' ' {
            return Err(Stop::Form);
        }
        self.at += 1;
        Ok(())
    }

    /// So many bytes, and the line's end.
    fn last(&mut self, count: usize) -> Result<&'a [u8], Stop> {
        self.space()?;
        let word = self.bytes.get(self.at..self.at + count).ok_or(Stop::Form)?;
        self.at += count;
        self.end()?;
        Ok(word)
    }

    /// A payload, and the line's end.
    pub fn payload(&mut self, into: &mut [u8]) -> Told {
        let digits = self.last(2 * into.len())?;
        if hex::decode(digits, into) { Ok(()) } else { Err(Stop::Form) }
    }

    /// A record, and the line's end.
    pub fn record(&mut self) -> Result<Record, Stop> {
        let digits = self.last(24)?;
        Record::of_digits(digits.try_into().unwrap()).ok_or(Stop::Form)
    }

    /// Whether a class is the mirrored one.
    pub fn is_mirrored(&mut self) -> Result<bool, Stop> {
        self.space()?;
        self.at += 1;
        match self.bytes[self.at - 1] {
            b'm' => Ok(true),
            b'p' => Ok(false),
            _ => Err(Stop::Form),
        }
    }

    /// Three to eight members, and the line's end. Those out of range are told behind the others.
    pub fn members(&mut self) -> Result<(usize, [Member; 8]), Stop> {
        let (mut members, mut count, mut is_within) = ([Member::default(); 8], 0, true);
        while self.bytes[self.at] == b' ' {
            let (drive, extent) = (self.number()?, self.number_behind(b'.')?);
            let member = members.get_mut(count).ok_or(Stop::Form)?;
            is_within &= drive < 16 && extent < 512;
            *member = Member { drive: drive as u8 & 15, extent: extent as u16 & 511 };
            count += 1;
        }
        self.end()?;
        match count {
            3..=8 if is_within => Ok((count, members)),
            3..=8 => Err(Stop::Range),
            _ => Err(Stop::Form),
        }
    }
}
