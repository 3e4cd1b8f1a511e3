//! The proved phase-equilibrium core, called from Rust: activity coefficients, bubble and dew points, liquid trials,
//! flashes and splits of up to eight solvents (NRTL or Wilson with an ideal-gas vapor).
//!
//! A [`Book`] holds the solvents and their pairs. Each task is a call that gives its own answer or a [`Refusal`]:
//! [`excess_at`], [`bubble_pressure`], [`dew_pressure`], [`bubble_temperature`], [`dew_temperature`],
//! [`liquid_stability`], [`tp_flash`], [`rachford_rice`], [`rachford_rice_negative`].
//!
//! ```
//! use zektonk::{tp_flash, Book, Kelvin, Options, Pascal, Phases};
//!
//! // Ethanol and water.
//! let bytes = include_bytes!("../../../crates/still/data/book.bin");
//! let book = Book::from(&bytes[..]);
//! let flash = tp_flash(&book, [0.5, 0.5], Kelvin(351.44), Pascal(90_000.0), Options::default())?;
//! let Phases::Both { liquid, vapor } = flash.phases else { panic!("one phase") };
//! assert!(vapor[0] > liquid[0]);
//! assert!((flash.vapor_fraction - 0.6986).abs() < 1e-4);
//! # Ok::<(), zektonk::Refusal>(())
//! ```
//!
//! Who learns the task at run time asks a [`Question`], a [`Task`] put to a feed, by [`answer`], and gets an
//! [`Answer`]. Who holds bytes already calls [`answer_bytes`], which copies nothing.
//!
//! Drums that are tipped into one charge are [`Drum`]s, counts of micromoles: [`pooled`] puts a task to their pool. Up to
//! 64 feeds at one temperature go into one call by [`feeds`], and each has its own answer or refusal. A pair is tried
//! before it is entered by [`preview`]: an [`Offered`] one stands in for the book's own, and the book stays as it is. A
//! shift's flash questions go by [`queue`] under one allowance of work; what doesn't fit is put off. How far a flash's
//! pressure can rise or fall until its outcome changes is said by [`distance`]. Of what a call wrote [`floor`] gives the
//! outcome alone, a [`Floor`], and [`lab`] all of it.
//!
//! A [`Refusal`] has its [`Reason`], a [`Place`] where a block of the book said no, and is printed as the core's
//! sentence: "7: a pair's kind, its two places or a flag is wrong (block 5)."
//!
//! This side tests that feed and K values have an entry for each solvent of the book, and nothing else: what a question
//! says goes to the core as it is, and the core answers it or refuses with one of its numbers. What a changed rounding
//! mode does is said at [`answer_bytes`]. [`format`](mod@format) names the words of the blocks.
#![deny(missing_docs)]
#![deny(unsafe_code)]

mod answer;
mod block;
mod book;
mod call;
mod distance;
mod drum;
mod feeds;
pub mod format;
mod place;
mod preview;
mod question;
mod queue;
mod readers;
mod refusal;
mod tasks;
mod up_to_eight;

pub use answer::{
    Answer, Energies, Excess, Flash, Malformed, Notes, Phases, Saturation, Split, Stability, Trial, TwoPhase, Validity,
};
pub use block::{Block, Rule, Words, BLOCK};
pub use book::{
    Book, Builder, Correlation, Incomplete, Interval, Model, Pair, Solvent, Term, WilsonPair, BOOK_LARGEST, BOOK_MOST,
};
pub use call::{
    answer_bytes, distance_bytes, feeds_bytes, floor_words, pooled_bytes, preview_bytes, queue_bytes, sentence_bytes,
};
pub use distance::{distance, Distance, DISTANCE_WORDS, STEPS_MOST, STEP_PASCALS};
pub use drum::{pooled, Drum, DRUMS_MOST, DRUM_BYTES, POOL_MOST};
pub use feeds::{feeds, FEEDS_MOST, FEED_BYTES};
pub use place::{Place, PLACE_WORDS};
pub use preview::{preview, Offered};
pub use question::{Feed, Kelvin, Options, Pascal, Question, Task};
pub use queue::{most_evaluations, queue, Queued, QUEUE_MOST};
pub use readers::{floor, lab, Floor, FLOOR_WORDS};
pub use refusal::{Reason, Refusal, SENTENCE_ROOM};
pub use tasks::{
    bubble_pressure, bubble_temperature, dew_pressure, dew_temperature, excess_at, liquid_stability, rachford_rice,
    rachford_rice_negative, tp_flash,
};
pub use up_to_eight::{TooMany, UpToEight};

/// Of this crate, of the header and of the archive beside it.
pub const VERSION: &str = env!("CARGO_PKG_VERSION");

/// Bytes that an answer slice has or exceeds: the answer block and eight trials.
pub const ANSWER_ROOM: usize = 9 * BLOCK;

/// The page's code is a test as well.
#[cfg(doctest)]
#[doc = include_str!("../README.md")]
struct Readme;

/// The answer to a question from a book.
///
/// # Errors
///
/// The core's refusal; or, before the core is asked, that feed or K values haven't an entry for each solvent of the
/// book.
///
/// ```
/// use zektonk::{answer, Book, Kelvin, Question, Reason, Task};
///
/// let empty = Book::from(&[][..]);
/// let question = Question::new(Task::BubblePressure { temperature: Kelvin(350.0) }, [1.0]);
/// assert_eq!(answer(&empty, &question), Err(Reason::BookLength.into()));
///
/// let two = Book::from(&include_bytes!("../../../crates/still/data/book.bin")[..]);
/// assert_eq!(answer(&two, &question), Err(Reason::FeedLength { entries: 1, solvents: 2 }.into()));
/// ```
///
/// # Panics
///
/// Where the core writes what is no answer, which it is proved not to.
pub fn answer(book: &Book<'_>, question: &Question) -> Result<Answer, Refusal> {
    if let Some(solvents) = book.solvents() {
        question.fits(solvents)?;
    }
    let mut room = [0; ANSWER_ROOM];
    answer_bytes(book.bytes(), &question.encode_by(book.rule()), &mut room)?;
    decoded(book, &room)
}

/// What the core wrote about an accepted book: an answer, or of one feed among many its refusal.
fn decoded(book: &Book<'_>, room: &[u8]) -> Result<Answer, Refusal> {
    let solvents = book.solvents().expect("an accepted book counts its solvents");
    Answer::decode_by(book.rule(), room, solvents).expect("the core's own blocks are right")
}
