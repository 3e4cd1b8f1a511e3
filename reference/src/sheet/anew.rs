//! A second reading of a book's and a question's words, from bytes and in closed forms, for the numbers that calls beside the plain
//! one put themselves.

use super::blocks::BLOCK;

pub fn word(bytes: &[u8], at: usize) -> u64 {
    (0..8).rev().fold(0, |sum, k| sum << 8 | u64::from(bytes[8 * at + k]))
}

/// Of a book that passes 3.
pub fn version(book: &[u8]) -> u64 {
    word(book, 1)
}

/// Word i stands in 63 − i of the running sums of version 3, and once in the plain sum.
pub fn check(block: &[u8], version: u64) -> u64 {
    let times = |i: usize| if version == 3 { 63 - i as u64 } else { 1 };
    (0..63).fold(0, |sum: u64, i| sum.wrapping_add(word(block, i).wrapping_mul(times(i))))
}

/// One whole block with its check right.
pub fn is_right_block(bytes: &[u8], version: u64) -> bool {
    bytes.len() == BLOCK && word(bytes, 63) == check(bytes, version)
}

/// The exponent of NaN and infinities has all bits set.
pub fn is_finite(bits: u64) -> bool {
    bits >> 52 & 0x7ff != 0x7ff
}

/// As finite floats: +0 and −0 are equal.
pub fn equal(a: u64, b: u64) -> bool {
    a == b || (a | b) << 1 == 0
}
