//! Drums that are tipped into one charge, and the call whose feed is their pool.

use crate::{decoded, pooled_bytes, Answer, Book, Feed, Question, Refusal, Task, UpToEight, ANSWER_ROOM};

/// Bytes of a drum: eight counts of 64 bits.
pub const DRUM_BYTES: usize = 64;

/// Drums that pool into one charge.
pub const DRUMS_MOST: usize = 64;

/// Micromoles that a pool may hold, 2^53: up to here every count is a float.
pub const POOL_MOST: u64 = 1 << 53;

/// Counts of micromoles, one for each solvent of the book in its order; those behind its solvents are not read.
///
/// ```
/// use zektonk::Drum;
///
/// assert_eq!(Drum::new([3, 1]), Drum([3, 1, 0, 0, 0, 0, 0, 0]));
/// ```
#[derive(Debug, Clone, Copy, PartialEq, Eq, Hash, Default)]
pub struct Drum(pub [u64; 8]);

impl Drum {
    /// From the first counts; the others are 0.
    #[must_use]
    pub fn new(counts: impl Into<UpToEight<u64>>) -> Self {
        let (mut drum, counts) = (Self::default(), counts.into());
        drum.0[..counts.len()].copy_from_slice(&counts);
        drum
    }

    /// As [`pooled_bytes`] takes it.
    #[must_use]
    pub fn bytes(&self) -> [u8; DRUM_BYTES] {
        let mut bytes = [0; DRUM_BYTES];
        for (place, count) in bytes.chunks_exact_mut(8).zip(self.0) {
            place.copy_from_slice(&count.to_le_bytes());
        }
        bytes
    }
}

/// The answer to a task put to the pool of 1 to 64 drums: of each solvent the sum over the drums, over the total.
///
/// # Errors
///
/// The core's refusal, among them [`DrumsLength`](crate::Reason::DrumsLength) and [`DrumsTotal`](crate::Reason::DrumsTotal); or,
/// before the core is asked, that there isn't a K value for each solvent of the book.
///
/// ```
/// use zektonk::{pooled, rachford_rice, Answer, Book, Drum, Reason, Refusal, Task};
///
/// let book = Book::from(&include_bytes!("../../../crates/still/data/book.bin")[..]);
/// let task = Task::RachfordRice { k: [2.0, 0.5].into(), max_iterations: 200 };
/// let found = pooled(&book, &task, &[Drum::new([3, 1]), Drum::new([1, 3])])?;
/// assert_eq!(found, Answer::RachfordRice(rachford_rice(&book, [0.5, 0.5], [2.0, 0.5], 200)?));
/// assert_eq!(pooled(&book, &task, &[]), Err(Reason::DrumsLength.into()));
/// assert_eq!(pooled(&book, &task, &[Drum::default()]), Err(Reason::DrumsTotal.into()));
/// # Ok::<(), Refusal>(())
/// ```
///
/// # Panics
///
/// Where the core writes what is no answer, which it is proved not to.
pub fn pooled(book: &Book<'_>, task: &Task, drums: &[Drum]) -> Result<Answer, Refusal> {
    if let Some(solvents) = book.solvents() {
        task.fits(solvents)?;
    }
    let question = Question::new(*task, Feed::Moles(UpToEight::default()));
    let bytes: Vec<u8> = drums.iter().flat_map(Drum::bytes).collect();
    let mut room = [0; ANSWER_ROOM];
    pooled_bytes(book.bytes(), &question.encode_by(book.rule()), &bytes, &mut room)?;
    decoded(book, &room)
}

#[cfg(test)]
mod tests {
    use super::*;

    #[test]
    fn counts_stand_lowest_byte_first() {
        let bytes = Drum([1, 0x0203, 0, 0, 0, 0, 0, u64::MAX]).bytes();
        assert_eq!((bytes[0], bytes[8], bytes[9]), (1, 3, 2));
        assert!(bytes[56..].iter().all(|byte| *byte == 0xff));
        assert!(bytes[16..56].iter().all(|byte| *byte == 0));
    }
}
