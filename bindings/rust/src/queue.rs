//! A shift's flash questions under one allowance of activity evaluations.

use crate::block::{Block, Rule};
use crate::format::answer::{OUTCOME, REFUSAL, TASK};
use crate::format::{outcome, task};
use crate::{queue_bytes, Answer, Book, Flash, Malformed, Question, Refusal, ANSWER_ROOM};

/// Questions of one queue.
pub const QUEUE_MOST: usize = 64;

/// What becomes of a question in a queue.
#[derive(Debug, Clone, PartialEq)]
#[non_exhaustive]
pub enum Queued {
    /// Run, as [`answer`](crate::answer) runs it; its [`evaluations`](Flash::evaluations) were taken off.
    Answered(Flash),
    /// Refused. Ahead of its first evaluation it took nothing, later what it had begun.
    Refused(Refusal),
    /// What it could begin at most was not left; nothing was taken off.
    PutOff,
}

impl Queued {
    /// The flash of a question that was answered.
    #[must_use]
    pub fn flash(&self) -> Option<&Flash> {
        match self {
            Self::Answered(flash) => Some(flash),
            _ => None,
        }
    }

    /// Reads a question's part of the answer slice, with a book of version 1 or 2 and `solvents` solvents. Bytes behind
    /// the blocks are not read.
    ///
    /// # Errors
    ///
    /// [`Malformed`] where these are not bytes that the core writes there.
    pub fn decode(bytes: &[u8], solvents: usize) -> Result<Self, Malformed> {
        Self::decode_by(Rule::Plain, bytes, solvents)
    }

    /// The same, checked by the [rule](crate::Book::rule) of the book.
    ///
    /// # Errors
    ///
    /// As [`decode`](Self::decode).
    pub fn decode_by(rule: Rule, bytes: &[u8], solvents: usize) -> Result<Self, Malformed> {
        match Answer::decode_by(rule, bytes, solvents) {
            Ok(Ok(Answer::TpFlash(flash))) => Ok(Self::Answered(flash)),
            Ok(Ok(_)) => Err(Malformed::Word(0, TASK)),
            Ok(Err(refusal)) => Ok(Self::Refused(refusal)),
            Err(Malformed::Word(0, OUTCOME)) if is_put_off(bytes) => Ok(Self::PutOff),
            Err(malformed) => Err(malformed),
        }
    }
}

/// Of a right block that is no answer: no number, outcome 4, and nothing else.
fn is_put_off(bytes: &[u8]) -> bool {
    let block = Block::of(bytes, 0).expect("it was read");
    let flash = block.word(TASK) == task::TP_FLASH;
    flash
        && block.word(OUTCOME) == outcome::PUT_OFF
        && (4..63).all(|at| block.word(at) == 0)
        && block.word(REFUSAL) == 0
}

/// What a flash can begin at most, (m + 2) M + 4, and what it asks for in a queue: `present` is the number of positive
/// mole fractions in its feed, of a feed by mass once it is converted.
///
/// ```
/// assert_eq!(zektonk::most_evaluations(2, 500), 2004);
/// ```
#[must_use]
pub fn most_evaluations(present: usize, max_iterations: u64) -> u64 {
    (present as u64 + 2).saturating_mul(max_iterations).saturating_add(4)
}

/// Runs 1 to 64 flash questions in order as far as `allowance` goes, a number of activity evaluations (all ln γ at one
/// composition), which is what a flash spends its time on. A question is run where [`most_evaluations`] of it are left,
/// and then only its real count is taken off; otherwise it is put off, and the next is tried. What is run is what
/// [`answer`](crate::answer) gives. No more evaluations are begun than the allowance says.
///
/// # Errors
///
/// What ends the whole call: a refusal of the book, or [`QueueQuestions`](crate::Reason::QueueQuestions), where there are not
/// 1 to 64 or one has another task than [`Task::TpFlash`](crate::Task::TpFlash); or, before the core is asked, that a
/// feed hasn't an entry for each solvent of the book. A refused question has its refusal in its own place and doesn't
/// stop the others.
///
/// ```
/// use zektonk::{queue, Book, Kelvin, Options, Pascal, Queued, Question, Reason, Refusal, Task};
///
/// let book = Book::from(&include_bytes!("../../../crates/still/data/book.bin")[..]);
/// let flash = |pressure| {
///     let options = Options { max_iterations: 100, ..Options::default() };
///     Question::new(Task::TpFlash { temperature: Kelvin(351.44), pressure: Pascal(pressure), options }, [0.5, 0.5])
/// };
/// // Each asks for 404.
/// let found = queue(&book, &[flash(90e3), flash(90e6), flash(120e3)], 500)?;
/// assert_eq!(found[0].flash().map(|flash| flash.evaluations), Some(243));
/// assert_eq!(found[1], Queued::Refused(Reason::PressureOutside.into()));
/// assert_eq!(found[2], Queued::PutOff);
/// assert_eq!(queue(&book, &[], 500), Err(Reason::QueueQuestions.into()));
/// # Ok::<(), Refusal>(())
/// ```
///
/// # Panics
///
/// Where the core writes what is no answer, which it is proved not to.
pub fn queue(book: &Book<'_>, questions: &[Question], allowance: u64) -> Result<Vec<Queued>, Refusal> {
    if let Some(solvents) = book.solvents() {
        for question in questions {
            question.fits(solvents)?;
        }
    }
    // The call has room for 64 answers at most; with more questions the core says 39 before it looks at the room.
    let mut room = vec![0; ANSWER_ROOM * questions.len().min(QUEUE_MOST)];
    let bytes: Vec<u8> = questions.iter().flat_map(|question| question.encode_by(book.rule())).collect();
    queue_bytes(book.bytes(), &bytes, allowance, &mut room)?;
    let solvents = book.solvents().expect("an accepted book counts its solvents");
    let part = |part| Queued::decode_by(book.rule(), part, solvents).expect("the core's own blocks are right");
    Ok(room.chunks_exact(ANSWER_ROOM).map(part).collect())
}

#[cfg(test)]
mod tests {
    use super::*;
    use crate::{Reason, Words};

    fn put_off() -> Words {
        Words::new(9).word(1, 7).word(3, 4)
    }

    #[test]
    fn the_block_of_one_put_off() {
        assert_eq!(Queued::decode(&put_off().seal(), 2), Ok(Queued::PutOff));
        assert_eq!(Queued::decode_by(Rule::Running, &put_off().seal_by(Rule::Running), 2), Ok(Queued::PutOff));
        assert_eq!(Queued::decode_by(Rule::Running, &put_off().seal(), 2), Err(Malformed::Check(0)));
        let refused = put_off().word(2, 27).seal();
        assert_eq!(Queued::decode(&refused, 2), Ok(Queued::Refused(Reason::NotConverged.into())));
        for at in 4..63 {
            assert!(Queued::decode(&put_off().word(at, 1).seal(), 2).is_err(), "word {at}");
        }
        for words in [put_off().word(1, 8), put_off().word(3, 5), put_off().word(1, 0)] {
            assert!(Queued::decode(&words.seal(), 2).is_err());
        }
        // An answer of another task is none of a queue.
        let other = Words::new(9).word(1, 2).seal();
        assert_eq!(Queued::decode(&other, 2), Err(Malformed::Word(0, 1)));
    }

    #[test]
    fn what_is_asked_for() {
        assert_eq!(most_evaluations(8, 1_000_000), 10_000_004);
        assert_eq!(most_evaluations(1, 1), 7);
        assert_eq!(most_evaluations(8, u64::MAX), u64::MAX);
    }
}
