//! A queue, plain Rust: 1 to 64 flash questions (39) in order, each run by a plain call of its own where the most that it can begin
//! is left of the allowance; its real count is then taken off.

use super::anew::{check, is_right_block, version, word};
use super::blocks::{bytes_of, BLOCK};
use super::book::MOLAR_MASS;
use super::question::{BASIS, BY_MASS, FRACTIONS, MAX_ITERATIONS, TASK};
use super::reply::{OUTCOME, REFUSAL};
use super::{open_book, refusal_block, ANSWER_BYTES};
use crate::evaluations::{counted, most};

pub const MOST_QUESTIONS: usize = 64;
pub const FLASH: u64 = 7;
/// Outcome of a question that is put off.
pub const PUT_OFF: u64 = 4;

/// What became of a question.
#[derive(Debug, Clone, Copy, PartialEq, Eq)]
pub enum Due {
    Answered,
    Refused(u64),
    PutOff,
}

impl Due {
    /// From the words of its part of the slice.
    pub fn of(part: &[u64]) -> Self {
        match (part[REFUSAL], part[OUTCOME]) {
            (0, PUT_OFF) => Due::PutOff,
            (0, _) => Due::Answered,
            (number, _) => Due::Refused(number),
        }
    }
}

/// 0, and at the front of each question's own `ANSWER_BYTES` its blocks, its refusal block or that of one put off; or the number that
/// ended the call, and `answers` untouched.
pub fn answer(book: &[u8], questions: &[u8], allowance: u64, answers: &mut [u8]) -> u32 {
    let number = ended_by(book, questions, answers.len());
    if number != 0 {
        return number;
    }
    let mut left = allowance;
    for (question, part) in questions.chunks(BLOCK).zip(answers.chunks_mut(ANSWER_BYTES)) {
        left -= answer_question(book, question, left, part);
    }
    0
}

/// The book's numbers, 39 and 10; 0 where none of them ends the call.
fn ended_by(book: &[u8], questions: &[u8], room: usize) -> u32 {
    if let Err(number) = open_book(book) {
        return number;
    }
    let whole = (1..=MOST_QUESTIONS).find(|q| q * BLOCK == questions.len());
    let other = |question: &[u8]| passes_11(question, version(book)) && word(question, TASK) != FLASH;
    match whole {
        None => 39,
        Some(_) if questions.chunks(BLOCK).any(other) => 39,
        Some(q) if room < q * ANSWER_BYTES => 10,
        Some(_) => 0,
    }
}

pub(super) fn passes_11(question: &[u8], version: u64) -> bool {
    is_right_block(question, version) && word(question, 0) == 8
}

/// Writes the question's blocks; how many evaluations it took.
fn answer_question(book: &[u8], question: &[u8], left: u64, part: &mut [u8]) -> u64 {
    let before = part.to_vec();
    let (number, begun) = counted(|| super::answer(book, question, part));
    // Refused before any evaluation, whatever is left.
    if number != 0 && begun == 0 || most_of(book, question) <= left {
        if number != 0 {
            part[..BLOCK].copy_from_slice(&bytes_of(&refusal_block(book, question, number)));
        }
        return begun;
    }
    part.copy_from_slice(&before);
    part[..BLOCK].copy_from_slice(&put_off(version(book)));
    0
}

/// Of a question that passes 11 to 21.
pub fn most_of(book: &[u8], question: &[u8]) -> u64 {
    let feed = mole_feed(book, question);
    most(feed.iter().filter(|z| **z > 0.0).count(), word(question, MAX_ITERATIONS))
}

/// The fractions, those of mass converted once more.
fn mole_feed(book: &[u8], question: &[u8]) -> Vec<f64> {
    let n = word(book, 2) as usize;
    let mut feed: Vec<f64> = (0..n).map(|i| f64::from_bits(word(question, FRACTIONS + i))).collect();
    if word(question, BASIS) == BY_MASS {
        let mut sum = 0.0;
        for (i, z) in feed.iter_mut().enumerate() {
            *z /= f64::from_bits(word(book, 64 * (1 + i) + MOLAR_MASS));
            sum += *z;
        }
        feed.iter_mut().for_each(|z| *z /= sum);
    }
    feed
}

/// Kind, task, outcome and the check, 0 in all other words.
pub fn put_off(version: u64) -> [u8; BLOCK] {
    let mut words = [0; 64];
    words[..2].copy_from_slice(&[9, FLASH]);
    words[OUTCOME] = PUT_OFF;
    let mut block = bytes_of(&words);
    let sum = check(&block, version);
    block[BLOCK - 8..].copy_from_slice(&sum.to_le_bytes());
    block
}
