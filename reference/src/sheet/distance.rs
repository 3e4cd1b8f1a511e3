//! How far to the next phase change, plain Rust: the flash at P, then a plain call at P + 100 × s Pa for s = 1, −1, 2, −2 and on to
//! 1000, −1000, until one is accepted with another outcome.

use super::anew::{version, word};
use super::blocks::{bytes_of, rule_of, seal, words_of};
use super::question::{PRESSURE, TASK};
use super::queue::{passes_11, FLASH};
use super::reply::{BUBBLE, DEW, OUTCOME};
use super::{open_book, ANSWER_BYTES};
use crate::named::model::ACTIVITY_PRESSURE_RANGE_PA;

/// Words of a result.
pub const RESULT_WORDS: usize = 4;
/// Steps up, and as many down.
pub const FARTHEST: i64 = 1000;

#[derive(Debug, Clone, Copy, PartialEq, Eq)]
pub enum Distance {
    /// Its outcome is another than at P.
    Step {
        s: i64,
        outcome: u64,
    },
    None,
}

/// What was found, and the numbers of the steps that were refused before.
#[derive(Debug, Clone, PartialEq, Eq)]
pub struct Search {
    pub distance: Distance,
    pub refused: Vec<u32>,
}

/// How steps are asked.
#[derive(Debug, Clone, Copy, PartialEq, Eq)]
pub enum Way {
    /// Each by a plain call.
    Plain,
    /// One plain call for all steps from the bubble pressure up, one for all from the dew pressure down; each other by its own.
    Sides,
}

/// The outcome of a flash, or its number.
type Flash = Result<u64, u32>;

/// 0 and the words of what was found at the front of `result`, if they fit; or a number, and `result` untouched.
pub fn answer(book: &[u8], question: &[u8], way: Way, result: &mut [u64]) -> u32 {
    match search(book, question, way) {
        Ok(found) => {
            found.write(result);
            0
        }
        Err(number) => number,
    }
}

impl Search {
    pub fn write(&self, result: &mut [u64]) {
        let refused = self.refused.len() as u64;
        if let Some(place) = result.get_mut(..RESULT_WORDS) {
            place.copy_from_slice(&match self.distance {
                Distance::Step { s, outcome } => [1, s as u64, outcome, refused],
                Distance::None => [0, 0, 0, refused],
            });
        }
    }
}

/// The book's numbers, 11, 12 of every task but the flash, then the flash's own.
pub fn search(book: &[u8], question: &[u8], way: Way) -> Result<Search, u32> {
    open_book(book)?;
    if !passes_11(question, version(book)) {
        return Err(11);
    }
    if word(question, TASK) != FLASH {
        return Err(12);
    }
    let first = flashed(book, question)?;
    let own = word(&first, OUTCOME);
    let mut sides = Sides::of(&first);
    let mut refused = Vec::new();
    for s in steps() {
        let flash = || flashed(book, &at_step(book, question, s)).map(|answer| word(&answer, OUTCOME));
        let found = match way {
            Way::Plain => flash(),
            Way::Sides => sides.flash(pressure_at(question, s), flash),
        };
        match found {
            Err(number) => refused.push(number),
            Ok(outcome) if outcome != own => return Ok(Search { distance: Distance::Step { s, outcome }, refused }),
            Ok(_) => {}
        }
    }
    Ok(Search { distance: Distance::None, refused })
}

/// 1, −1, 2, −2 and on.
pub fn steps() -> impl Iterator<Item = i64> {
    (1..=FARTHEST).flat_map(|s| [s, -s])
}

/// One rounded addition.
fn pressure_at(question: &[u8], s: i64) -> f64 {
    f64::from_bits(word(question, PRESSURE)) + (100 * s) as f64
}

/// The question at step s, its check right.
pub fn at_step(book: &[u8], question: &[u8], s: i64) -> Vec<u8> {
    let mut words = words_of(question);
    words[PRESSURE] = pressure_at(question, s).to_bits();
    seal(&mut words, rule_of(book));
    bytes_of(&words).to_vec()
}

/// The answer of the plain call.
pub fn flashed(book: &[u8], question: &[u8]) -> Result<[u8; ANSWER_BYTES], u32> {
    let mut answer = [0; ANSWER_BYTES];
    match super::answer(book, question, &mut answer) {
        0 => Ok(answer),
        number => Err(number),
    }
}

/// Where a flash's pressure doesn't change what comes of it, and what that is, once a step has told.
struct Sides {
    bubble: f64,
    dew: f64,
    liquid: Option<Flash>,
    vapor: Option<Flash>,
}

impl Sides {
    fn of(answer: &[u8]) -> Self {
        let [bubble, dew] = [BUBBLE, DEW].map(|at| f64::from_bits(word(answer, at)));
        Self { bubble, dew, liquid: None, vapor: None }
    }

    fn flash(&mut self, p: f64, plain: impl FnOnce() -> Flash) -> Flash {
        let [low, high] = ACTIVITY_PRESSURE_RANGE_PA;
        if !(low..=high).contains(&p) {
            plain()
        } else if p >= self.bubble {
            *self.liquid.get_or_insert_with(plain)
        } else if p <= self.dew {
            *self.vapor.get_or_insert_with(plain)
        } else {
            plain()
        }
    }
}
