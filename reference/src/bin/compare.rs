//! Holds the core against the reference, bit for bit.
//!
//! compare STAGE [--count N] [--seed S]

use std::process::ExitCode;

use reference::command::{not_built_in_fails, Options, USAGE};
use reference::counts::{count_sheets, Counts, Exchanges};
use reference::generate::cases::Cases;
use reference::stage::{hex_words, Case, Stage};

/// Differences that are printed in full.
const SHOWN: usize = 20;

fn main() -> ExitCode {
    let Some(options) = Options::read(std::env::args().skip(1)) else {
        eprintln!("usage: compare {USAGE}");
        return ExitCode::from(2);
    };
    let differences: usize = options.stages.iter().map(|stage| compare(*stage, &options)).sum();
    if differences == 0 {
        ExitCode::SUCCESS
    } else {
        ExitCode::FAILURE
    }
}

/// The number of differences; a stage that isn't built in is one under CI=true.
fn compare(stage: Stage, options: &Options) -> usize {
    if !stage.built_in() {
        let mut broken = 0;
        if stage.has_sheets() {
            let counts = count_sheets(stage, options.seed, options.count_of(stage));
            counts.print(stage);
            broken = counts.flashes.broken;
        }
        println!("{}: not built in", stage.name());
        return broken + usize::from(not_built_in_fails());
    }
    let mut cases = Cases::new(stage, options.seed, false);
    let mut counts = Counts::default();
    let mut exchanges = Exchanges::default();
    let mut differences = 0;
    for _ in 0..options.count_of(stage) {
        let (kind, case) = cases.draw();
        let expected = case.expected();
        counts.add(kind, &case, &expected);
        let offered = case.offered();
        exchanges.add(&case, cases.exchange(), offered.as_ref().map_or(0, |words| words[0]));
        if offered.as_ref() != Some(&expected.words) {
            differences += 1;
            if differences <= SHOWN {
                show(&case, &expected.words);
            }
        }
    }
    counts.print(stage);
    // A bound that the reference breaks is no less a finding.
    differences += counts.flashes.broken;
    if stage == Stage::Exchanged {
        exchanges.print();
        differences += exchanges.let_through;
    }
    let (all, accepted, refused) = (counts.all.all(), counts.all.accepted(), counts.all.refused());
    println!("{}: {all} compared, {accepted} accepted, refused {refused}, {differences} differences", stage.name());
    differences
}

fn show(case: &Case, expected: &[u64]) {
    let words = |words: &[u64]| {
        let mut line = String::new();
        hex_words(&mut line, words);
        line
    };
    println!("difference: {}", case.line());
    println!("  reference:{}", words(expected));
    println!("  core:     {}", words(&case.offered().unwrap_or_default()));
}
