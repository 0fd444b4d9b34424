//! Bytes as hex digits, in lanes of SSE: sixteen digits a step.

use std::arch::x86_64::*;

const HALF: usize = 8;

#[inline]
#[target_feature(enable = "sse4.1")]
fn lane_of(low: [u8; HALF], high: [u8; HALF]) -> __m128i {
    _mm_set_epi64x(i64::from_le_bytes(high), i64::from_le_bytes(low))
}

#[inline]
#[target_feature(enable = "sse4.1")]
fn halves_of(lane: __m128i) -> [[u8; HALF]; 2] {
    [_mm_cvtsi128_si64(lane), _mm_extract_epi64(lane, 1)].map(i64::to_le_bytes)
}

// The values of the digits, of either case, and which of them are digits: 255 for each that is one.
#[inline]
#[target_feature(enable = "sse4.1")]
fn values(digits: __m128i) -> (__m128i, __m128i) {
    let number = _mm_sub_epi8(digits, _mm_set1_epi8(b'0' as i8));
    let letter = _mm_sub_epi8(_mm_or_si128(digits, _mm_set1_epi8(0x20)), _mm_set1_epi8(b'a' as i8));
    let is_number = _mm_cmpeq_epi8(_mm_min_epu8(number, _mm_set1_epi8(9)), number);
    let is_letter = _mm_cmpeq_epi8(_mm_min_epu8(letter, _mm_set1_epi8(5)), letter);
    let value = _mm_blendv_epi8(_mm_add_epi8(letter, _mm_set1_epi8(10)), number, is_number);
    (value, _mm_or_si128(is_number, is_letter))
}

// Two values a byte, the high one first, in the lane's low half.
#[inline]
#[target_feature(enable = "sse4.1")]
fn joined(values: __m128i) -> __m128i {
    let pairs = _mm_maddubs_epi16(values, _mm_set1_epi16(0x0110));
    _mm_packus_epi16(pairs, pairs)
}

#[target_feature(enable = "sse4.1")]
fn decode_lanes(lanes: &[[[u8; HALF]; 2]], targets: &mut [[u8; HALF]]) -> bool {
    let mut all = _mm_set1_epi8(-1);
    for ([low, high], target) in lanes.iter().zip(targets) {
        let (value, right) = values(lane_of(*low, *high));
        all = _mm_and_si128(all, right);
        *target = _mm_cvtsi128_si64(joined(value)).to_le_bytes();
    }
    _mm_movemask_epi8(all) == 0xffff
}

// The digits of the lane's low eight bytes, of lower case.
#[inline]
#[target_feature(enable = "sse4.1")]
fn spelled(bytes: __m128i) -> __m128i {
    let digits = _mm_setr_epi8(48, 49, 50, 51, 52, 53, 54, 55, 56, 57, 97, 98, 99, 100, 101, 102);
    let high = _mm_and_si128(_mm_srli_epi16(bytes, 4), _mm_set1_epi8(15));
    let low = _mm_and_si128(bytes, _mm_set1_epi8(15));
    _mm_shuffle_epi8(digits, _mm_unpacklo_epi8(high, low))
}

#[target_feature(enable = "sse4.1")]
fn encode_lanes(lanes: &[[u8; HALF]], targets: &mut [[[u8; HALF]; 2]]) {
    for (lane, target) in lanes.iter().zip(targets) {
        *target = halves_of(spelled(lane_of(*lane, [0; HALF])));
    }
}

/// The bytes of twice as many digits, whose count is a multiple of 16; false where one is no digit.
#[inline]
pub fn decode(digits: &[u8], into: &mut [u8]) -> bool {
    let (halves, _) = digits.as_chunks();
    let (lanes, _) = halves.as_chunks();
    let (targets, _) = into.as_chunks_mut();
    // SAFETY: the program is compiled for processors that have SSE4.1.
    unsafe { decode_lanes(lanes, targets) }
}

/// The number that a record's digits spell in twelve bytes.
#[inline]
pub fn decode_record(digits: &[u8; 24]) -> Option<u128> {
    let mut lanes = [b'0'; 32];
    lanes[8..].copy_from_slice(digits);
    let mut bytes = [0; 16];
    decode(&lanes, &mut bytes).then_some(u128::from_be_bytes(bytes))
}

/// The digits of bytes, whose count is a multiple of 8.
#[inline]
pub fn encode(bytes: &[u8], into: &mut [u8]) {
    let (lanes, _) = bytes.as_chunks();
    let (halves, _) = into.as_chunks_mut();
    let (targets, _) = halves.as_chunks_mut();
    // SAFETY: the program is compiled for processors that have SSE4.1.
    unsafe { encode_lanes(lanes, targets) }
}

/// The digits of a number of sixteen bytes.
#[inline]
pub fn encode_number(number: u128) -> [u8; 32] {
    let mut digits = [0; 32];
    encode(&number.to_be_bytes(), &mut digits);
    digits
}
