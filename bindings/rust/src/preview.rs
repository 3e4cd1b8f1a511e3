//! A pair that is tried before it is entered into a book.

use crate::block::BLOCK;
use crate::{decoded, preview_bytes, Answer, Book, Pair, Question, Refusal, Rule, WilsonPair, ANSWER_ROOM};

/// A pair's block, offered in place of a book's own pair of the same two solvents.
#[derive(Debug, Clone, Copy, PartialEq, Eq)]
pub struct Offered([u8; BLOCK]);

impl Offered {
    /// NRTL parameters of solvents i < j, for a book whose blocks are checked by this [rule](Book::rule).
    #[must_use]
    pub fn pair(rule: Rule, i: usize, j: usize, pair: &Pair) -> Self {
        Self(pair.words(i, j).seal_by(rule))
    }

    /// Wilson parameters of solvents i < j.
    #[must_use]
    pub fn wilson_pair(rule: Rule, i: usize, j: usize, pair: &WilsonPair) -> Self {
        Self(pair.words(i, j).seal_by(rule))
    }

    /// Its block.
    #[must_use]
    pub fn bytes(&self) -> &[u8; BLOCK] {
        &self.0
    }
}

impl From<[u8; BLOCK]> for Offered {
    /// A block that somebody else has made.
    fn from(block: [u8; BLOCK]) -> Self {
        Self(block)
    }
}

/// The answer to a question as from a copy of the book that holds the offered pair in place of its own. The book stays
/// as it is.
///
/// # Errors
///
/// The core's refusal; or, before the core is asked, that feed or K values haven't an entry for each solvent of the
/// book. Behind the book's own questions the offered pair is put some of the same: a refusal of it is said of
/// [`Place::Offered`](crate::Place::Offered).
///
/// ```
/// use zektonk::{answer, preview, Book, Kelvin, Offered, Pair, Place, Question, Reason, Refusal, Task};
///
/// let book = Book::from(&include_bytes!("../../../crates/still/data/book.bin")[..]);
/// let fitted = Pair {
///     tau_ij: [0.0, -45.9, 0.0, 0.0],
///     tau_ji: [0.0, 651.5, 0.0, 0.0],
///     alpha: [0.2937, 0.0],
///     interval: None,
/// };
/// let question = Question::new(Task::BubblePressure { temperature: Kelvin(351.44) }, [0.5, 0.5]);
/// let tried = preview(&book, &Offered::pair(book.rule(), 0, 1, &fitted), &question)?;
/// assert_ne!(tried, answer(&book, &question)?);
///
/// // No pair of the book.
/// let other = Offered::pair(book.rule(), 0, 2, &fitted);
/// assert_eq!(preview(&book, &other, &question), Err(Reason::PairBlock.at(Place::Offered)));
/// # Ok::<(), Refusal>(())
/// ```
///
/// # Panics
///
/// Where the core writes what is no answer, which it is proved not to.
pub fn preview(book: &Book<'_>, offered: &Offered, question: &Question) -> Result<Answer, Refusal> {
    if let Some(solvents) = book.solvents() {
        question.fits(solvents)?;
    }
    let mut room = [0; ANSWER_ROOM];
    preview_bytes(book.bytes(), offered.bytes(), &question.encode_by(book.rule()), &mut room)?;
    decoded(book, &room)
}
