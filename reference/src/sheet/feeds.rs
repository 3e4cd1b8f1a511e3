//! Many feeds, plain Rust: 1 to 64 feeds (33) in place of a question's fractions, each answered by a plain call of its own.

use super::anew::{check, is_right_block, version, word};
use super::blocks::{bytes_of, BLOCK};
use super::question::{BASIS, FRACTIONS, TASK};
use super::{open_book, refusal_block, ANSWER_BYTES};

/// Bytes of a feed: eight floats, little-endian words.
pub const FEED: usize = 64;
pub const MOST_FEEDS: usize = 64;

/// Tasks of one temperature.
pub const TASKS: [u64; 5] = [1, 2, 3, 6, 7];

/// 0, and at the front of each feed's own `ANSWER_BYTES` its blocks or its refusal block; or the number that ended the call, and
/// `answers` untouched.
pub fn answer(book: &[u8], question: &[u8], feeds: &[u8], answers: &mut [u8]) -> u32 {
    let number = ended_by(book, feeds.len(), answers.len());
    if number != 0 {
        return number;
    }
    for (feed, part) in feeds.chunks(FEED).zip(answers.chunks_mut(ANSWER_BYTES)) {
        let number = answer_feed(book, question, feed, part);
        if number != 0 {
            part[..BLOCK].copy_from_slice(&bytes_of(&refusal_block(book, question, number)));
        }
    }
    0
}

/// The book's numbers, 33 and 10; 0 where none of them ends the call.
fn ended_by(book: &[u8], feeds: usize, room: usize) -> u32 {
    if let Err(number) = open_book(book) {
        return number;
    }
    let whole = (1..=MOST_FEEDS).find(|m| m * FEED == feeds);
    match whole {
        None => 33,
        Some(m) if room < m * ANSWER_BYTES => 10,
        Some(_) => 0,
    }
}

/// 11, 12 and 36 of the question as it was sent, then the plain call.
fn answer_feed(book: &[u8], question: &[u8], feed: &[u8], part: &mut [u8]) -> u32 {
    let version = version(book);
    if !is_right_block(question, version) || word(question, 0) != 8 {
        return 11;
    }
    if !TASKS.contains(&word(question, TASK)) {
        return 12;
    }
    match word(question, BASIS) {
        0 => {}
        1 if version > 1 => {}
        _ => return 36,
    }
    super::answer(book, &with_feed(question, feed, version), part)
}

/// The question with the feed in its words 4 to 11, its check right.
pub fn with_feed(question: &[u8], feed: &[u8], version: u64) -> Vec<u8> {
    let mut fed = question.to_vec();
    fed[8 * FRACTIONS..8 * FRACTIONS + FEED].copy_from_slice(feed);
    let sum = check(&fed, version);
    fed[BLOCK - 8..].copy_from_slice(&sum.to_le_bytes());
    fed
}

pub fn bytes_of_feeds(feeds: &[[f64; 8]]) -> Vec<u8> {
    feeds.iter().flatten().flat_map(|v| v.to_bits().to_le_bytes()).collect()
}
