//! Answer slices by what the readers make of them.

use super::kinds::Kinds;
use crate::sheet::blocks::{words_of, Words, BLOCK};
use crate::sheet::queue::{FLASH, PUT_OFF};
use crate::sheet::readers::{lab, MOST_TRIALS};
use crate::sheet::reply::{OUTCOME, REFUSAL, TRIALS};
use crate::stage::Case;

#[derive(Debug, Default)]
pub struct Slices {
    read: Kinds,
    trials: Kinds,
    unread: Kinds,
}

impl Slices {
    pub fn add(&mut self, case: &Case, refusal: u32) {
        let Case::Readers { slice, .. } = case else { return };
        let accepted = refusal == 0;
        match lab(slice) {
            Ok(part) => {
                let words = words_of(&part[..BLOCK]);
                self.read.add(shown(&words), accepted);
                self.trials.add(["0", "1", "2", "3", "4", "5", "6", "7", "8"][words[TRIALS] as usize], accepted);
            }
            Err(_) => self.unread.add(reason(slice), accepted),
        }
    }

    pub fn print(&self) {
        self.read.print("slices read, by task");
        self.trials.print("slices read, by trials");
        self.unread.print("slices refused with 1");
    }
}

fn shown(words: &Words) -> &'static str {
    let tasks = ["0", "1", "2", "3", "4", "5", "6", "7", "8", "9"];
    match tasks.get(words[1] as usize) {
        _ if words[REFUSAL] != 0 => "a refusal",
        _ if (words[1], words[OUTCOME]) == (FLASH, PUT_OFF) => "put off",
        Some(task) => task,
        None => "another",
    }
}

/// The first thing that is wrong.
fn reason(slice: &[u8]) -> &'static str {
    let Some(block) = slice.get(..BLOCK) else { return "shorter than a block" };
    let words = words_of(block);
    match words[TRIALS] {
        _ if words[0] != 9 => "of another kind",
        9 => "9 trials",
        u64::MAX => "2^64 - 1 trials",
        count if count > MOST_TRIALS as u64 => "more trials",
        count if slice.len() < BLOCK * (1 + count as usize) => "cut",
        _ => "a trial of another kind",
    }
}
