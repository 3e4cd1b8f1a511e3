//! Raising a limit: a call as it is asked, then with higher limits and the question's check made right. What was accepted stays, in
//! every byte, and so does each refusal but those of the limits and of the check.

use crate::generate::small::sealed_by;
use crate::sheet::anew::word;
use crate::sheet::blocks::{rule_of, words_of};
use crate::sheet::question::{MAX_ITERATIONS, MAX_TEMPERATURE_ITERATIONS};
use crate::sheet::reply::REFUSAL;
use crate::sheet::ANSWER_BYTES;
use crate::stage::{Case, Found};

/// What a higher limit, or a check made right, may change: the check, a limit of 0, a limit that was spent.
pub const OF_LIMITS: [u64; 3] = [11, 20, 27];

pub const HIGHEST: u64 = 1_000_000;

/// `max_iterations` and `max_temperature_iterations`.
pub type Limits = [u64; 2];

pub const PLACES: [usize; 2] = [MAX_ITERATIONS, MAX_TEMPERATURE_ITERATIONS];

pub fn limits_of(question: &[u8]) -> Limits {
    PLACES.map(|at| word(question, at))
}

/// The question with these limits, its check by the book's rule.
pub fn raised(book: &[u8], question: &[u8], limits: Limits) -> Vec<u8> {
    let mut words = words_of(question);
    [words[MAX_ITERATIONS], words[MAX_TEMPERATURE_ITERATIONS]] = limits;
    sealed_by(rule_of(book), words)
}

/// The reference's words of the call as it is asked, and behind them those due of the raised one: the same, but for a call, or the part
/// of a feed, that was refused with one of `OF_LIMITS`. Number and evaluations are those of the call as it is asked.
pub fn both(asked: &Case, limits: Limits) -> Found {
    let mut found = asked.expected();
    let mut due = found.words.clone();
    let free = refused_by_limits(asked, &found.words);
    if !free.is_empty() {
        let raised = asked.with_limits(limits).expected().words;
        free.into_iter().for_each(|words| due[words.clone()].copy_from_slice(&raised[words]));
    }
    found.words.append(&mut due);
    found
}

/// The places of the call's words, or of its parts', that a limit or the check has refused.
fn refused_by_limits(asked: &Case, words: &[u64]) -> Vec<std::ops::Range<usize>> {
    if words[0] != 0 {
        return if OF_LIMITS.contains(&words[0]) { vec![0..words.len()] } else { Vec::new() };
    }
    let part = ANSWER_BYTES / 8;
    let parts = (0..asked.parts()).map(|k| 1 + k * part..1 + (k + 1) * part);
    parts.filter(|places| OF_LIMITS.contains(&words[places.start + REFUSAL])).collect()
}
