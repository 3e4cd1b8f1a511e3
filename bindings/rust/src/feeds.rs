//! Many feeds at one temperature, in one call.

use crate::{decoded, feeds_bytes, Answer, Book, Feed, Question, Reason, Refusal, Task, ANSWER_ROOM};

/// Bytes of a feed among many: eight floats.
pub const FEED_BYTES: usize = 64;

/// Feeds of one call.
pub const FEEDS_MOST: usize = 64;

/// The answers to one task put to each of 1 to 64 feeds, all of moles or all of mass: [`Task::ExcessAt`],
/// [`Task::BubblePressure`], [`Task::DewPressure`], [`Task::LiquidStability`] and [`Task::TpFlash`]. The core works out
/// what belongs to the temperature once. Each entry is what [`answer`](crate::answer) gives for that feed.
///
/// # Errors
///
/// What ends the whole call: a refusal of the book, or [`FeedsLength`](Reason::FeedsLength); or, before the core is
/// asked, that a feed hasn't an entry for each solvent of the book, or that some are of moles and some of mass. A refused
/// feed has its own error in its own place and doesn't stop the others; with another task each has
/// [`Task`](Reason::Task).
///
/// ```
/// use zektonk::{answer, feeds, Book, Feed, Kelvin, Question, Reason, Refusal, Task};
///
/// let book = Book::from(&include_bytes!("../../../crates/still/data/book.bin")[..]);
/// let task = Task::BubblePressure { temperature: Kelvin(351.44) };
/// let week: [Feed; 3] = [[0.5, 0.5].into(), [0.5, 0.4].into(), [0.2, 0.8].into()];
/// let found = feeds(&book, &task, &week)?;
/// assert_eq!(found[0], answer(&book, &Question::new(task, week[0])));
/// assert_eq!(found[1], Err(Reason::FractionSum.into()));
/// assert!(found[2].is_ok());
/// assert_eq!(feeds(&book, &task, &[]), Err(Reason::FeedsLength.into()));
/// # Ok::<(), Refusal>(())
/// ```
///
/// # Panics
///
/// Where the core writes what is no answer, which it is proved not to.
pub fn feeds(book: &Book<'_>, task: &Task, feeds: &[Feed]) -> Result<Vec<Result<Answer, Refusal>>, Refusal> {
    let first = feeds.first().copied().unwrap_or(Feed::Moles(Default::default()));
    if feeds.iter().any(|feed| feed.kind() != first.kind()) {
        return Err(Reason::FeedsMixed.into());
    }
    if let Some(solvents) = book.solvents() {
        for feed in feeds {
            Question::new(*task, *feed).fits(solvents)?;
        }
    }
    // The call has room for 64 answers at most; with more feeds the core says 33 before it looks at the room.
    let mut room = vec![0; ANSWER_ROOM * feeds.len().min(FEEDS_MOST)];
    let bytes: Vec<u8> = feeds.iter().flat_map(bytes_of).collect();
    feeds_bytes(book.bytes(), &Question::new(*task, first).encode_by(book.rule()), &bytes, &mut room)?;
    Ok(room.chunks_exact(ANSWER_ROOM).map(|part| decoded(book, part)).collect())
}

/// As [`feeds_bytes`] takes it.
fn bytes_of(feed: &Feed) -> [u8; FEED_BYTES] {
    let mut bytes = [0; FEED_BYTES];
    for (place, fraction) in bytes.chunks_exact_mut(8).zip(feed.fractions().iter()) {
        place.copy_from_slice(&fraction.to_le_bytes());
    }
    bytes
}

#[cfg(test)]
mod tests {
    use super::*;

    #[test]
    fn floats_stand_lowest_byte_first() {
        let bytes = bytes_of(&Feed::mass([0.25, -0.0]));
        assert_eq!(bytes[..16], [0, 0, 0, 0, 0, 0, 0xd0, 0x3f, 0, 0, 0, 0, 0, 0, 0, 0x80]);
        assert!(bytes[16..].iter().all(|byte| *byte == 0));
    }
}
