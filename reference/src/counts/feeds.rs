//! Feeds of the calls with many.

use super::kinds::{how_many, model_is, Kinds};
use super::{outcomes, Tally};
use crate::stage::{Case, Found};
use crate::with::With;

#[derive(Debug, Default)]
pub struct Feeds {
    lengths: Kinds,
    books: Kinds,
    feeds: Tally,
    /// Calls with answers and refusals side by side.
    mixed: usize,
}

impl Feeds {
    pub fn add(&mut self, case: &Case, found: &Found) {
        let Case::With { with: With::Feeds, book, lent, .. } = case else { return };
        self.lengths.add(how_many(lent.len()), found.refusal == 0);
        if found.refusal != 0 {
            return;
        }
        let all = outcomes(case, found);
        for outcome in &all {
            self.feeds.add(outcome.number);
            self.feeds.absent += usize::from(outcome.absent);
            if let Some(model) = model_is(book) {
                self.books.add(model, outcome.number == 0);
            }
        }
        let accepted = all.iter().filter(|outcome| outcome.number == 0).count();
        self.mixed += usize::from((1..all.len()).contains(&accepted));
    }

    pub fn print(&self) {
        self.lengths.print("calls by their feeds");
        self.books.print("feeds by their books");
        let (all, accepted, absent) = (self.feeds.all(), self.feeds.accepted(), self.feeds.absent);
        println!(
            "feeds asked: {all}, {accepted} accepted ({absent} with absent solvents), refused {}; {} calls with both",
            self.feeds.refused(),
            self.mixed
        );
    }
}
