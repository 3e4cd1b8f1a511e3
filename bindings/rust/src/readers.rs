//! What the floor is shown of an answer, and what the lab is.

use crate::call::{floor_words, lab_length};
use crate::format::floor::{LIQUID, OUTCOME, PRESSURE, REFUSAL, TASK, TEMPERATURE, VAPOR, VAPOR_FRACTION};
use crate::{Kelvin, Pascal, Reason, Refusal};

/// Words of a floor sheet.
pub const FLOOR_WORDS: usize = 22;

/// The floor sheet of an answer: its outcome without residuals, counts and trials. Words 1 to 5, 11 and 14 to 29 of the
/// answer block, whatever these hold; of task 1 everything behind the pressure is 0.
///
/// Two are equal where all 22 words are, bit for bit, so that −0 isn't +0.
#[derive(Debug, Clone, Copy)]
pub struct Floor {
    /// What was asked, 1 to 9; 0 where a refusal was found before that.
    pub task: u64,
    /// 0, or the number that a feed or the program's question was refused with.
    pub refusal: u64,
    /// [Which phases](crate::format::outcome) there are, in tasks 7 to 9.
    pub outcome: u64,
    /// Asked or found.
    pub temperature: Kelvin,
    /// Asked or found.
    pub pressure: Pascal,
    /// Moles of vapor per mole of feed.
    pub vapor_fraction: f64,
    /// Mole fractions, in the book's order of solvents; 0 past the last.
    pub liquid: [f64; 8],
    /// Mole fractions.
    pub vapor: [f64; 8],
}

impl Floor {
    /// Its words, in the order of [`format::floor`](crate::format::floor).
    #[must_use]
    pub fn words(&self) -> [u64; FLOOR_WORDS] {
        let mut words = [0; FLOOR_WORDS];
        words[TASK] = self.task;
        words[REFUSAL] = self.refusal;
        words[OUTCOME] = self.outcome;
        words[TEMPERATURE] = self.temperature.0.to_bits();
        words[PRESSURE] = self.pressure.0.to_bits();
        words[VAPOR_FRACTION] = self.vapor_fraction.to_bits();
        words[LIQUID..VAPOR].copy_from_slice(&self.liquid.map(f64::to_bits));
        words[VAPOR..].copy_from_slice(&self.vapor.map(f64::to_bits));
        words
    }
}

impl From<[u64; FLOOR_WORDS]> for Floor {
    fn from(words: [u64; FLOOR_WORDS]) -> Self {
        let float = |at: usize| f64::from_bits(words[at]);
        Self {
            task: words[TASK],
            refusal: words[REFUSAL],
            outcome: words[OUTCOME],
            temperature: Kelvin(float(TEMPERATURE)),
            pressure: Pascal(float(PRESSURE)),
            vapor_fraction: float(VAPOR_FRACTION),
            liquid: std::array::from_fn(|i| float(LIQUID + i)),
            vapor: std::array::from_fn(|i| float(VAPOR + i)),
        }
    }
}

impl PartialEq for Floor {
    fn eq(&self, other: &Self) -> bool {
        self.words() == other.words()
    }
}

impl Eq for Floor {}

/// What the floor is shown of an answer slice: of what [`answer_bytes`](crate::answer_bytes) and the other calls on bytes,
/// or the program `still`, wrote to its front; of a feed or a queued question, to the front of its own part.
///
/// # Errors
///
/// [`BookLength`](Reason::BookLength), number 1, where the slice doesn't begin with a block of kind 9 and as many of
/// kind 10, at most eight, as its word 12 says. Checks are not tested, what stands behind these blocks is not read, and a
/// refusal's block, or that of a question put off, is read as any other.
///
/// ```
/// use zektonk::{floor, lab, Kelvin, Reason, Refusal};
///
/// let answer = include_bytes!("../../../crates/still/stdout");
/// let shown = floor(answer)?;
/// assert_eq!((shown.task, shown.outcome, shown.temperature), (7, 3, Kelvin(351.44)));
/// assert!((shown.vapor_fraction - 0.6986).abs() < 1e-4);
/// assert_eq!(floor(lab(answer)?), Ok(shown));
/// assert_eq!(floor(&answer[1..]), Err(Reason::BookLength.into()));
/// # Ok::<(), Refusal>(())
/// ```
pub fn floor(answer: &[u8]) -> Result<Floor, Refusal> {
    let mut words = [0; FLOOR_WORDS];
    floor_words(answer, &mut words)?;
    Ok(words.into())
}

/// What the lab is shown of an answer slice: the answer's block and its trials, as the part of the slice that they are.
/// After an accepted call these are exactly the bytes that it wrote.
///
/// # Errors
///
/// As [`floor`].
pub fn lab(answer: &[u8]) -> Result<&[u8], Refusal> {
    match lab_length(answer) {
        0 => Err(Reason::BookLength.into()),
        length => Ok(&answer[..length]),
    }
}
