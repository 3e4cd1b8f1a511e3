//! Holds the core against the reference on sheets whose partial terms vanish or overflow, and counts the steps at which 34 came.
//!
//! vanish [--count N] [--seed S]

use std::process::ExitCode;

use reference::command::{count_and_seed, not_built_in_fails};
use reference::counts::Tally;
use reference::generate::{vanish, Rng};
use reference::stage::Stage;
use reference::steps::{self, STEPS};

/// Differences that are printed in full.
const SHOWN: usize = 20;

fn main() -> ExitCode {
    let Some((count, seed)) = count_and_seed(1_000_000) else {
        eprintln!("usage: vanish [--count N] [--seed S]");
        return ExitCode::from(2);
    };
    if !Stage::Sheet.built_in() {
        println!("vanish: not built in");
        return ExitCode::from(u8::from(not_built_in_fails()));
    }
    let mut rng = Rng::new(seed);
    let mut tally = Tally::default();
    let mut refused = [0; STEPS.len()];
    let mut differences = 0;
    for _ in 0..count {
        let case = vanish::case(&mut rng);
        // What the generator's own calls noted.
        steps::refused();
        let expected = case.expected();
        tally.add(expected.refusal);
        let step = steps::refused();
        assert_eq!(expected.refusal == 34, step.is_some());
        for (place, seen) in STEPS.iter().zip(&mut refused) {
            *seen += usize::from(step == Some(*place));
        }
        if case.offered().as_ref() != Some(&expected.words) {
            differences += 1;
            if differences <= SHOWN {
                println!("difference: {}", case.line());
            }
        }
    }
    let at: Vec<String> = STEPS.iter().zip(refused).map(|(step, seen)| format!("{step:?} {seen}")).collect();
    println!(
        "vanish: {} compared, {} accepted, refused {} (34 at {}), {differences} differences",
        tally.all(),
        tally.accepted(),
        tally.refused(),
        at.join(", ")
    );
    ExitCode::from(u8::from(differences > 0))
}
