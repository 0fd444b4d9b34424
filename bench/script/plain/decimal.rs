//! Numbers in decimal, eight digits a step: the digits of a word lie in one number, the first in its lowest byte.

const ZEROS: u64 = 0x3030_3030_3030_3030;

/// The word's number and its length; none where there is no digit at its front, or more than seven.
#[inline]
pub fn short(digits: u64) -> Option<(u32, usize)> {
    let values = digits ^ ZEROS;
    // The highest bit of each byte that is no digit's value; the last byte is never looked at.
    let others = (values.wrapping_add(0x7676_7676_7676_7676) | values | 1 << 63) & 0x8080_8080_8080_8080;
    let count = others.trailing_zeros() / 8;
    if count == 0 || count == 7 || values & 0xff == 0 && count > 1 {
        return None;
    }
    Some((joined(values << (64 - 8 * count)), count as usize))
}

// Eight values of digits, the first in the lowest byte.
#[inline]
fn joined(values: u64) -> u32 {
    const PAIRS: u64 = 0x0000_00ff_0000_00ff;
    let pairs = values.wrapping_mul(10).wrapping_add(values >> 8);
    let low = (pairs & PAIRS).wrapping_mul(0x000f_4240_0000_0064);
    let high = (pairs >> 16 & PAIRS).wrapping_mul(0x0000_2710_0000_0001);
    (low.wrapping_add(high) >> 32) as u32
}

/// A numeral of at most ten digits, and its length.
pub fn long(word: &[u8]) -> Option<(u64, usize)> {
    let count = word.iter().position(|byte| !byte.is_ascii_digit())?;
    if count == 0 || count > 10 || word[0] == b'0' && count > 1 {
        return None;
    }
    Some((word[..count].iter().fold(0, |sum, digit| 10 * sum + u64::from(digit - b'0')), count))
}

// The values of eight digits of a number below 10^8, the first in the lowest byte.
#[inline]
fn parted(number: u32) -> u64 {
    let number = u64::from(number);
    let fours = (number / 10_000) | ((number % 10_000) << 32);
    let hundreds = ((fours * 10_486) >> 20) & 0x0000_007f_0000_007f;
    let pairs = hundreds | ((fours - 100 * hundreds) << 16);
    let tens = ((pairs * 103) >> 10) & 0x000f_000f_000f_000f;
    tens | ((pairs - 10 * tens) << 8)
}

/// A number's digits at the front, and how many there are.
#[inline]
pub fn digits(number: u32) -> ([u8; 16], usize) {
    if number >= 100_000_000 {
        return long_digits(number);
    }
    let values = parted(number);
    // A number has one digit at least.
    let zeros = (values | 1 << 56).trailing_zeros() / 8;
    let front = (values | ZEROS) >> (8 * zeros);
    (u128::from(front).to_le_bytes(), 8 - zeros as usize)
}

#[cold]
fn long_digits(number: u32) -> ([u8; 16], usize) {
    let (high, count) = digits(number / 100_000_000);
    let mut all = high;
    all[count..count + 8].copy_from_slice(&(parted(number % 100_000_000) | ZEROS).to_le_bytes());
    (all, count + 8)
}
