//! The calls that take more than the plain one.

use crate::rattle;
use crate::sheet::anew::word;
use crate::sheet::blocks::BLOCK;
use crate::sheet::feeds::FEED;
use crate::sheet::{feeds, pool, preview, queue};

/// What the slice lent besides holds.
#[derive(Debug, Clone, Copy, PartialEq, Eq)]
pub enum With {
    /// Drums, whose pool is the feed.
    Drums,
    /// Feeds, each with its own part of the answer slice.
    Feeds,
    /// A pair block that is tried.
    Pair,
    /// The allowance of a queue, one word, which the call takes as a number; its questions stand in place of the question.
    Allowance,
}

impl With {
    /// As in `zektonk_pooled`.
    pub fn name(self) -> &'static str {
        match self {
            With::Drums => "pooled",
            With::Feeds => "feeds",
            With::Pair => "preview",
            With::Allowance => "queue",
        }
    }

    /// How many parts of the answer slice an accepted call fills.
    pub fn parts(self, question: &[u8], lent: &[u8]) -> usize {
        match self {
            With::Feeds => lent.len() / FEED,
            With::Allowance => question.len() / BLOCK,
            _ => 1,
        }
    }

    pub fn reference(self, book: &[u8], question: &[u8], lent: &[u8], answer: &mut [u8]) -> u32 {
        match self {
            With::Drums => pool::answer(book, question, lent, answer),
            With::Feeds => feeds::answer(book, question, lent, answer),
            With::Pair => preview::answer(book, lent, question, answer),
            With::Allowance => queue::answer(book, question, word(lent, 0), answer),
        }
    }

    /// `None` where the stage is not built in.
    pub fn core(self, book: &[u8], question: &[u8], lent: &[u8], answer: &mut [u8]) -> Option<u64> {
        match self {
            With::Drums => rattle::pooled(book, question, lent, answer),
            With::Feeds => rattle::feeds(book, question, lent, answer),
            With::Pair => rattle::preview(book, lent, question, answer),
            With::Allowance => rattle::queue(book, question, word(lent, 0), answer),
        }
    }
}
