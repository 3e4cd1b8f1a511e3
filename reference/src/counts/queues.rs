//! Questions of the queues.

use super::kinds::{model_is, Kinds};
use super::Tally;
use crate::evaluations::counted;
use crate::sheet::anew::word;
use crate::sheet::blocks::BLOCK;
use crate::sheet::queue::{most_of, Due, MOST_QUESTIONS};
use crate::sheet::reply::EVALUATIONS;
use crate::sheet::{self, ANSWER_BYTES};
use crate::stage::{parts, Case, Found};
use crate::with::With;

#[derive(Debug, Default)]
pub struct Queues {
    lengths: Kinds,
    books: Kinds,
    allowances: Kinds,
    answered: usize,
    put_off: usize,
    refused: Tally,
    /// Of the refused, those that took nothing.
    first: usize,
    /// Run with just as much left as they ask for, and put off for one less.
    exact: usize,
    one_less: usize,
    /// Calls with answers, refusals and questions put off side by side.
    mixed: usize,
}

impl Queues {
    pub fn add(&mut self, case: &Case, found: &Found) {
        let Case::With { with: With::Allowance, book, question: questions, lent, .. } = case else { return };
        self.lengths.add(length_is(questions.len()), found.refusal == 0);
        if found.refusal != 0 {
            return;
        }
        let allowance = word(lent, 0);
        self.allowances.add(allowance_is(allowance), true);
        let mut left = allowance;
        let mut seen = [false; 3];
        for (question, part) in questions.chunks(BLOCK).zip(parts(&found.words, questions.len() / BLOCK)) {
            let due = Due::of(part);
            if let Some(model) = model_is(book) {
                self.books.add(model, due == Due::Answered);
            }
            seen[place(due)] = true;
            left -= self.add_question(book, question, part, due, left);
        }
        self.mixed += usize::from(seen == [true; 3]);
    }

    /// How many evaluations it took.
    fn add_question(&mut self, book: &[u8], question: &[u8], part: &[u64], due: Due, left: u64) -> u64 {
        let taken = match due {
            Due::Answered => {
                self.answered += 1;
                part[EVALUATIONS]
            }
            Due::Refused(number) => {
                self.refused.add(number as u32);
                counted(|| sheet::answer(book, question, &mut [0; ANSWER_BYTES])).1
            }
            Due::PutOff => {
                self.put_off += 1;
                self.one_less += usize::from(most_of(book, question) == left + 1);
                return 0;
            }
        };
        if taken == 0 {
            self.first += 1;
        } else {
            self.exact += usize::from(most_of(book, question) == left);
        }
        taken
    }

    pub fn print(&self) {
        self.lengths.print("calls by their questions");
        self.allowances.print("calls by their allowance");
        self.books.print("questions by their books");
        let refused = self.refused.all();
        println!(
            "questions: {}, {} answered, {} put off, {refused} refused ({} before any evaluation): {}; {} run with just what they ask for, {} put off for one less; {} calls with all three",
            self.answered + self.put_off + refused,
            self.answered,
            self.put_off,
            self.first,
            self.refused.refused(),
            self.exact,
            self.one_less,
            self.mixed
        );
    }
}

fn place(due: Due) -> usize {
    match due {
        Due::Answered => 0,
        Due::Refused(_) => 1,
        Due::PutOff => 2,
    }
}

fn length_is(bytes: usize) -> &'static str {
    match bytes / BLOCK {
        _ if !bytes.is_multiple_of(BLOCK) => "cut",
        0 => "none",
        1 => "1",
        2..MOST_QUESTIONS => "2 to 63",
        MOST_QUESTIONS => "64",
        65 => "65",
        _ => "above 65",
    }
}

fn allowance_is(allowance: u64) -> &'static str {
    match allowance {
        0 => "0",
        1..=999 => "to 999",
        1_000..=99_999 => "to 99,999",
        u64::MAX => "2^64 - 1",
        _ => "above",
    }
}
