//! How far a flash's pressure can rise or fall until its outcome changes.

use crate::format::distance::{FOUND, OUTCOME, REFUSED, STEPS};
use crate::{distance_bytes, Book, Question, Refusal};

/// Words that the call gives.
pub const DISTANCE_WORDS: usize = 4;

/// Steps each way.
pub const STEPS_MOST: i64 = 1000;

/// A step, Pa.
pub const STEP_PASCALS: i64 = 100;

/// The nearest step with another outcome than at the flash's own pressure.
#[derive(Debug, Clone, Copy, PartialEq, Eq, Hash)]
#[non_exhaustive]
pub enum Distance {
    /// A step is accepted with another outcome, and none before it.
    Step {
        /// Up where it is positive, down where it is negative, in steps of [`STEP_PASCALS`].
        steps: i64,
        /// [Which phases](crate::format::outcome) there are at the step.
        outcome: u64,
        /// How many steps before it are refused.
        refused: u64,
    },
    /// No step is.
    None {
        /// How many of all are refused.
        refused: u64,
    },
}

impl Distance {
    /// What the pressure changes by, Pa; 100 for each step, up or down.
    #[must_use]
    pub fn pascals(&self) -> Option<i64> {
        match self {
            Self::Step { steps, .. } => Some(STEP_PASCALS * steps),
            Self::None { .. } => None,
        }
    }
}

impl From<[u64; DISTANCE_WORDS]> for Distance {
    fn from(words: [u64; DISTANCE_WORDS]) -> Self {
        let refused = words[REFUSED];
        match words[FOUND] {
            0 => Self::None { refused },
            _ => Self::Step { steps: words[STEPS] as i64, outcome: words[OUTCOME], refused },
        }
    }
}

/// How far it is from a flash to the next phase change: of the pressures P + 100 × s Pa, s being 1, −1, 2, −2 and on to
/// 1000, −1000, each one rounded addition, the first whose flash is accepted with another outcome than at P. The flash of
/// a step is what [`answer`](crate::answer) says to the question with that pressure. One that is refused, by whatever
/// number, is passed over and counted.
///
/// What holds between two steps alone isn't seen: close to an azeotrope both phases are there for less than 100 Pa.
///
/// # Errors
///
/// A refusal of the book; [`Task`](crate::Reason::Task), where the question's task isn't
/// [`Task::TpFlash`](crate::Task::TpFlash); what refuses the flash at P; or, before the core is asked, that the feed hasn't
/// an entry for each solvent of the book.
///
/// ```
/// use zektonk::{distance, Book, Distance, Kelvin, Options, Pascal, Question, Reason, Task};
///
/// let book = Book::from(&include_bytes!("../../../crates/still/data/book.bin")[..]);
/// let flash = |pressure| {
///     let (temperature, options) = (Kelvin(351.44), Options::default());
///     Question::new(Task::TpFlash { temperature, pressure: Pascal(pressure), options }, [0.5, 0.5])
/// };
/// // Both phases at 90,000 Pa; all liquid from 96,400 on.
/// assert_eq!(distance(&book, &flash(90e3)), Ok(Distance::Step { steps: 64, outcome: 1, refused: 0 }));
/// assert_eq!(distance(&book, &flash(400e3)), Ok(Distance::None { refused: 0 }));
/// assert_eq!(distance(&book, &flash(90.0)), Err(Reason::PressureOutside.into()));
/// ```
///
/// # Panics
///
/// Where the core gives a number that is no refusal, which it is proved not to.
pub fn distance(book: &Book<'_>, question: &Question) -> Result<Distance, Refusal> {
    if let Some(solvents) = book.solvents() {
        question.fits(solvents)?;
    }
    distance_bytes(book.bytes(), &question.encode_by(book.rule()))
}

#[cfg(test)]
mod tests {
    use super::*;

    #[test]
    fn words() {
        let down = Distance::from([1, -1000_i64 as u64, 2, 17]);
        assert_eq!(down, Distance::Step { steps: -1000, outcome: 2, refused: 17 });
        assert_eq!(down.pascals(), Some(-100_000));
        let none = Distance::from([0, 0, 0, 2000]);
        assert_eq!((none, none.pascals()), (Distance::None { refused: 2000 }, None));
    }
}
