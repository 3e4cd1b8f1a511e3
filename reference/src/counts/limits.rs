//! Calls made again with a limit raised.

use std::collections::BTreeMap;

use super::kinds::{model_is, Kinds};
use super::{task_of, Tally};
use crate::limits::{limits_of, Limits, HIGHEST};
use crate::sheet::reply::REFUSAL;
use crate::stage::{parts, Case, Found};

/// Feeds are counted each by itself.
#[derive(Debug, Default)]
pub struct Raised {
    /// Accepted as asked, by task.
    kept: BTreeMap<u64, usize>,
    ways: Kinds,
    calls: Kinds,
    books: Kinds,
    /// What came of those that a limit of 0, or one that was spent, had refused.
    zero: Tally,
    spent: Tally,
    /// Refused otherwise, which stays where the check was right.
    refused: Tally,
}

impl Raised {
    pub fn add(&mut self, case: &Case, found: &Found) {
        let (Case::Raised { asked, limits }, Some((book, question))) = (case, case.sheet()) else { return };
        let (first, second) = found.words.split_at(found.words.len() / 2);
        for (before, after) in numbers(asked, first).into_iter().zip(numbers(asked, second)) {
            let accepted = before == 0;
            self.ways.add(way(limits_of(question), *limits), accepted);
            self.calls.add(asked.name(), accepted);
            if let Some(model) = model_is(book) {
                self.books.add(model, accepted);
            }
            match before {
                0 => *self.kept.entry(task_of(question)).or_default() += 1,
                20 => self.zero.add(after),
                27 => self.spent.add(after),
                number => self.refused.add(number),
            }
        }
    }

    pub fn print(&self) {
        self.ways.print("raised");
        self.calls.print("raised, by their calls");
        self.books.print("raised, by their books");
        let kept: Vec<String> = self.kept.iter().map(|(task, count)| format!("task {task}: {count}")).collect();
        println!("accepted, then raised: {} ({})", self.kept.values().sum::<usize>(), kept.join(", "));
        let became = |tally: &Tally| format!("{}, {} answered once raised", tally.all(), tally.accepted());
        println!("refused with 27: {} (else {})", became(&self.spent), self.spent.refused());
        println!("refused with 20: {} (else {})", became(&self.zero), self.zero.refused());
        println!("refused otherwise: {}", self.refused.refused());
    }
}

/// Of the call, or of each part.
fn numbers(asked: &Case, words: &[u64]) -> Vec<u32> {
    match words[0] {
        0 => parts(words, asked.parts()).map(|part| part[REFUSAL] as u32).collect(),
        number => vec![number as u32],
    }
}

fn way(own: Limits, raised: Limits) -> &'static str {
    let far = |k: usize| match raised[k] {
        HIGHEST => 2,
        by => usize::from(by - own[k] > 1),
    };
    match [0, 1].map(|k| own[k] != raised[k]) {
        [false, false] => "neither",
        [true, false] => ["M by 1", "M by some", "M to 1,000,000"][far(0)],
        [false, true] => {
            ["temperature iterations by 1", "temperature iterations by some", "temperature iterations to 1,000,000"]
                [far(1)]
        }
        [true, true] if far(0) + far(1) == 4 => "both to 1,000,000",
        [true, true] => "both",
    }
}
