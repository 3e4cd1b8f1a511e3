//! Pooled drums, plain Rust: the call whose feed is the pool of 1 to 64 drums (31, 32).

use super::{opened, replied, written, Words};
use crate::helpers;

/// Bytes of a drum: eight counts of micromoles, little-endian words.
pub const DRUM: usize = 64;
pub const MOST_DRUMS: usize = 64;
/// The largest total, micromoles. Up to it every count is a float.
pub const MOST: u128 = 1 << 53;

pub type Drum = [u64; 8];

/// As `sheet::answer`, with the pool's feed in place of the question's fractions.
pub fn answer(book: &[u8], question: &[u8], drums: &[u8], answer: &mut [u8]) -> u32 {
    let found = blocks_of(book, question, drums, answer.len());
    written(answer, found)
}

/// 1 to 12 and those put among them, 31, 32, 36, then 13 on.
fn blocks_of(book: &[u8], question: &[u8], drums: &[u8], room: usize) -> Result<Vec<Words>, u32> {
    let (book, question) = opened(book, question, room)?;
    let counts = pool(drums, book.solvents.len())?;
    if !question.by_moles() {
        return Err(36);
    }
    let feed = question.ask_feed(feed(&counts)?, None)?;
    replied(&book, &question, &feed)
}

/// Whole drums; what a cut one leaves is not among them.
pub fn drums_of(bytes: &[u8]) -> impl Iterator<Item = Drum> + '_ {
    let word = |eight: &[u8]| u64::from_le_bytes(eight.try_into().expect("eight bytes"));
    bytes.chunks_exact(DRUM).map(move |drum| std::array::from_fn(|i| word(&drum[8 * i..8 * i + 8])))
}

pub fn bytes_of(drums: &[Drum]) -> Vec<u8> {
    drums.iter().flatten().flat_map(|count| count.to_le_bytes()).collect()
}

/// Of the first n counts of all drums taken separately; no slice is long enough for it to wrap.
pub fn total(bytes: &[u8], n: usize) -> u128 {
    drums_of(bytes).map(|drum| drum[..n].iter().map(|count| u128::from(*count)).sum::<u128>()).sum()
}

/// The sum over the drums of each of the first n counts (31, 32).
pub fn pool(bytes: &[u8], n: usize) -> Result<Vec<u64>, u32> {
    if !bytes.len().is_multiple_of(DRUM) || !(1..=MOST_DRUMS).contains(&(bytes.len() / DRUM)) {
        return Err(31);
    }
    if !(1..=MOST).contains(&total(bytes, n)) {
        return Err(32);
    }
    let count = |i: usize| drums_of(bytes).try_fold(0u64, |sum, drum| sum.checked_add(drum[i]));
    Ok((0..n).map(|i| count(i).expect("no more than the total")).collect())
}

/// The mole fractions of a pool.
pub fn feed(counts: &[u64]) -> Result<Vec<f64>, u32> {
    helpers::normalize(counts.iter().map(|count| *count as f64).collect()).map_err(|error| error.number())
}
