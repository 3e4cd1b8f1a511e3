//! Writes cases with the reference's results, one a line, or counts them.
//!
//! oracle STAGE [--count N] [--seed S]
//! oracle --counts [STAGE] [--count N] [--seed S]
//! oracle differences                             the inputs that docs/DIFFERENCES.md names
//! oracle borders                                 feeds by mass at the borders of 34, 35 and 36
//! oracle exchanged-borders                       version 3 books, and others, at the borders of 1, 38, 2, 3 and 11
//! oracle wilson-borders                          Wilson books, and others, at the borders of 37, 7, 8 and 25
//! oracle pooled-borders                          drums at the borders of 31, 32 and 36
//! oracle feeds-borders                           many feeds at the borders of 33, 10, 11, 12 and 36
//! oracle preview-borders                         offered pairs at the borders of their 1, 2, 7, 8 and 9
//! oracle queue-borders                           queues at the borders of 39, 10 and the allowance
//! oracle full                                    flashes that begin as many evaluations as any can
//! oracle limits-borders                          sheets with one turn too few or just enough, each as asked and with limits raised
//! oracle distance-borders                        distances at the borders of the steps
//! oracle readers-borders                         answer slices at the borders of 1 and 10
//! oracle place-borders                           books with several blocks that say no, by all calls
//! oracle sentence-borders                        every number with places of every kind

use std::io::{BufWriter, Write};
use std::process::ExitCode;

use reference::command::{Options, USAGE};
use reference::counts::{count_sheets, count_stage};
use reference::generate::cases::Cases;
use reference::generate::{
    batches, differences, distances, exchanged, limits, mass, places, pooled, previews, queues, readers, sentences,
    wilson,
};
use reference::stage::{Case, Stage};

/// Lines of a stage where no count is given.
const LINES: usize = 200;

fn main() -> ExitCode {
    let words: Vec<String> = std::env::args().skip(1).collect();
    let named = match words.iter().map(String::as_str).collect::<Vec<_>>()[..] {
        ["differences"] => Some(differences::cases()),
        ["borders"] => Some(mass::borders().into_iter().map(|(case, _)| case).collect()),
        ["exchanged-borders"] => Some(exchanged::borders().into_iter().map(|(case, _)| case).collect()),
        ["wilson-borders"] => Some(wilson::borders().into_iter().map(|(case, _)| case).collect()),
        ["pooled-borders"] => Some(pooled::borders().into_iter().map(|(case, _)| case).collect()),
        ["feeds-borders"] => Some(batches::borders().into_iter().map(|(case, _)| case).collect()),
        ["preview-borders"] => Some(previews::borders().into_iter().map(|(case, _)| case).collect()),
        ["queue-borders"] => Some(queues::borders().into_iter().map(|(case, _)| case).collect()),
        ["limits-borders"] => Some(limits::turns().into_iter().map(|(case, ..)| case).collect()),
        ["distance-borders"] => Some(distances::borders().into_iter().map(|(case, _)| case).collect()),
        ["readers-borders"] => Some(readers::borders().into_iter().map(|(case, _)| case).collect()),
        ["place-borders"] => Some(places::borders().into_iter().map(|border| border.case).collect()),
        ["sentence-borders"] => Some(sentences::borders()),
        ["full"] => Some(queues::full().iter().map(|found| found.case()).collect()),
        _ => None,
    };
    if let Some(cases) = named {
        return if write(cases.into_iter()).is_ok() { ExitCode::SUCCESS } else { ExitCode::FAILURE };
    }
    let Some(options) = Options::read(words.into_iter()) else {
        eprintln!("usage: oracle differences|borders|exchanged-borders|wilson-borders|pooled-borders|feeds-borders|preview-borders|queue-borders|full|limits-borders|distance-borders|readers-borders|place-borders|sentence-borders|{USAGE}");
        return ExitCode::from(2);
    };
    for stage in &options.stages {
        if options.counts {
            count(*stage, &options);
        } else {
            let cases = Cases::new(*stage, options.seed, true).take(options.count.unwrap_or(LINES));
            if write(cases).is_err() {
                return ExitCode::FAILURE;
            }
        }
    }
    ExitCode::SUCCESS
}

fn count(stage: Stage, options: &Options) {
    let number = options.count_of(stage);
    if stage.has_sheets() {
        count_sheets(stage, options.seed, number).print(stage);
    } else {
        let tally = count_stage(stage, options.seed, number);
        let share = tally.percent_accepted();
        println!("{}: {number} cases, {share:.0}% accepted, refused {}", stage.name(), tally.refused());
    }
}

/// Name, inputs, `=`, outputs.
fn write(cases: impl Iterator<Item = Case>) -> std::io::Result<()> {
    let mut out = BufWriter::new(std::io::stdout().lock());
    for case in cases.flat_map(Case::calls) {
        writeln!(out, "{} ={}", case.line(), case.results())?;
    }
    out.flush()
}
