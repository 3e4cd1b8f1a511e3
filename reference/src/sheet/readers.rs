//! The readers of an answer slice, plain Rust: the floor's words and the lab's blocks.

use super::blocks::{words_of, BLOCK};
use super::reply::{LIQUID, TRIALS, VAPOR, VAPOR_FRACTION};

/// Words of a floor sheet.
pub const FLOOR_WORDS: usize = 22;
pub const MOST_TRIALS: usize = 8;

const TASK: usize = 1;
const ACTIVITY: u64 = 1;
/// Task to pressure, which every task shows.
const FRONT: usize = 5;

/// The answer block and its trials, or 1.
pub fn lab(slice: &[u8]) -> Result<&[u8], u32> {
    let mut blocks = slice.chunks_exact(BLOCK).map(words_of);
    let answer = blocks.next().filter(|words| words[0] == 9).ok_or(1u32)?;
    let trials = (0..=MOST_TRIALS).find(|count| *count as u64 == answer[TRIALS]).ok_or(1u32)?;
    let is_trial = |block: Option<[u64; 64]>| block.is_some_and(|words| words[0] == 10);
    if (0..trials).all(|_| is_trial(blocks.next())) {
        Ok(&slice[..BLOCK + BLOCK * trials])
    } else {
        Err(1)
    }
}

pub fn floor(slice: &[u8]) -> Result<[u64; FLOOR_WORDS], u32> {
    let words = words_of(&lab(slice)?[..BLOCK]);
    let front = &words[TASK..TASK + FRONT];
    let shown = [front, &[words[VAPOR_FRACTION]], &words[LIQUID..VAPOR + 8]].concat();
    let mut floor: [u64; FLOOR_WORDS] = shown.try_into().expect("22 words");
    if words[TASK] == ACTIVITY {
        floor[FRONT..].fill(0);
    }
    Ok(floor)
}

/// 0 and the floor's words at the front of `words`; or 1, then 10 where fewer are lent, and `words` untouched.
pub fn write_floor(slice: &[u8], words: &mut [u64]) -> u32 {
    match (floor(slice), words.get_mut(..FLOOR_WORDS)) {
        (Err(number), _) => number,
        (Ok(_), None) => 10,
        (Ok(floor), Some(place)) => {
            place.copy_from_slice(&floor);
            0
        }
    }
}
