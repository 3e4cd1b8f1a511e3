//! The command lines that the binaries share.

use crate::stage::{Stage, STAGES};

pub const USAGE: &str =
    "numbers|fractions|book|pressure|excess|rice|sheet|mass|exchanged|wilson|pooled|feeds|preview|queue|limits|distance|readers|place|sentence|all [--count N] [--seed S] [--counts]";

pub struct Options {
    pub stages: Vec<Stage>,
    /// Cases of each stage; each has its own default.
    pub count: Option<usize>,
    pub seed: u64,
    /// Only the counts of acceptances and refusals.
    pub counts: bool,
}

impl Options {
    /// `None` where a word is not understood.
    pub fn read(mut words: impl Iterator<Item = String>) -> Option<Self> {
        let mut options = Self { stages: Vec::new(), count: None, seed: 1, counts: false };
        while let Some(word) = words.next() {
            match word.as_str() {
                "--count" => options.count = Some(words.next()?.parse().ok()?),
                "--seed" => options.seed = words.next()?.parse().ok()?,
                "--counts" => options.counts = true,
                name => options.stages.extend(Stage::named(name)?),
            }
        }
        if options.counts && options.stages.is_empty() {
            options.stages = STAGES.to_vec();
        }
        (!options.stages.is_empty()).then_some(options)
    }

    pub fn count_of(&self, stage: Stage) -> usize {
        self.count.unwrap_or(match stage {
            Stage::Numbers => 4_000_000,
            Stage::Fractions | Stage::Book | Stage::Pressure | Stage::Excess | Stage::Rice => 400_000,
            Stage::Feeds => 20_000,
            Stage::Queue => 10_000,
            Stage::Distance => 20_000,
            Stage::Readers | Stage::Sentence => 1_000_000,
            // Of them more than 500,000 have a book that is refused.
            Stage::Place => 640_000,
            _ => 200_000,
        })
    }
}

/// `[--count N] [--seed S]` of a binary with a count of its own; `None` where a word is not understood.
pub fn count_and_seed(count: usize) -> Option<(usize, u64)> {
    let (mut count, mut seed) = (count, 1);
    let mut words = std::env::args().skip(1);
    while let Some(word) = words.next() {
        match word.as_str() {
            "--count" => count = words.next()?.parse().ok()?,
            "--seed" => seed = words.next()?.parse().ok()?,
            _ => return None,
        }
    }
    Some((count, seed))
}

/// A gate that compares nothing must not pass: under CI=true a stage that isn't built in counts as a failure.
pub fn not_built_in_fails() -> bool {
    std::env::var("CI").is_ok_and(|value| value == "true")
}
