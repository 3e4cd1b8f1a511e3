//! Runs striking on the core: generated sheets with absent solvents, and the same sheets with those struck. Every sheet asked is
//! compared with the reference's plain call too.
//!
//! strike [--count N] [--seed S] [--task K] [--wilson] [--feeds|--preview|--queue|--distance]     N accepted sheets, as many of each task,
//! or of task K; of NRTL books, or of Wilson books and tasks 1 to 7; by the plain call, as one of several feeds (tasks 1, 2, 3, 6, 7), by a
//! preview, as one of a queue, or the distance to the next phase change (task 7)

use std::process::ExitCode;

use reference::command::not_built_in_fails;
use reference::generate::absent::Base;
use reference::generate::Rng;
use reference::sheet::blocks::{rule_of, Rule};
use reference::sheet::queue::FLASH;
use reference::sheet::{feeds, ANSWER_BYTES};
use reference::stage::{hex_bytes, Stage};
use reference::strike::{
    core, core_feeds, core_preview, core_queue, distance_differs, distance_shown, reference, shown, Call, Sheet, Shown,
    TASKS,
};

/// Books that are tried with a question.
const TRIES: usize = 4;
/// Failures that are printed in full.
const SHOWN: usize = 20;

#[derive(Default)]
struct Counts {
    calls: usize,
    accepted: usize,
    by_mass: usize,
    /// Of version 3 books.
    third: usize,
    /// With an absent +0, with an absent −0, with two absent solvents and more, with one kept.
    zeros: [usize; 2],
    several: usize,
    alone: usize,
    failures: usize,
    differences: usize,
}

fn main() -> ExitCode {
    let Some(Options { count, seed, tasks, wilson, by }) = options() else {
        eprintln!("usage: strike [--count N] [--seed S] [--task K] [--wilson] [--feeds|--preview|--queue|--distance]");
        return ExitCode::from(2);
    };
    if !by.built_in() {
        println!("strike: not built in");
        return ExitCode::from(u8::from(not_built_in_fails()));
    }
    let mut rng = Rng::new(seed);
    let mut all = [0; 3];
    for task in &tasks {
        let counts = run(&mut rng, *task, wilson, by, count.div_ceil(tasks.len()));
        print(*task, &counts);
        all = [all[0] + counts.accepted, all[1] + counts.failures, all[2] + counts.differences];
    }
    let model = if wilson { "Wilson" } else { "NRTL" };
    let by = by.name();
    println!(
        "strike, {model}, {by}: {} accepted with absent solvents, {} failures, {} differences",
        all[0], all[1], all[2]
    );
    ExitCode::from(u8::from(all[1] + all[2] > 0))
}

struct Options {
    count: usize,
    seed: u64,
    tasks: Vec<u64>,
    /// Of Wilson books; of NRTL books otherwise.
    wilson: bool,
    /// The stage whose call is made.
    by: Stage,
}

fn call_of(by: Stage) -> Call {
    match by {
        Stage::Feeds => core_feeds,
        Stage::Preview => core_preview,
        Stage::Queue => core_queue,
        _ => core,
    }
}

/// `None` where a word is not understood.
fn options() -> Option<Options> {
    let (mut count, mut seed, mut task, mut wilson, mut by) = (80_000, 1, None, false, Stage::Sheet);
    let mut words = std::env::args().skip(1);
    while let Some(word) = words.next() {
        match word.as_str() {
            "--count" => count = words.next()?.parse().ok()?,
            "--seed" => seed = words.next()?.parse().ok()?,
            "--task" => task = Some(words.next()?.parse().ok().filter(|task| TASKS.contains(task))?),
            "--wilson" => wilson = true,
            "--feeds" => by = Stage::Feeds,
            "--preview" => by = Stage::Preview,
            "--queue" => by = Stage::Queue,
            "--distance" => by = Stage::Distance,
            _ => return None,
        }
    }
    // Tasks 8 and 9 have no model.
    let all = match by {
        Stage::Feeds => &feeds::TASKS[..],
        Stage::Queue | Stage::Distance => &[FLASH],
        _ if wilson => &TASKS[..7],
        _ => &TASKS,
    };
    if matches!(by, Stage::Feeds | Stage::Queue | Stage::Distance) && task.is_some_and(|task| !all.contains(&task)) {
        return None;
    }
    Some(Options { count, seed, tasks: task.map_or(all.to_vec(), |task| vec![task]), wilson, by })
}

fn run(rng: &mut Rng, task: u64, wilson: bool, by: Stage, wanted: usize) -> Counts {
    let mut counts = Counts::default();
    let draw = if wilson { Base::of_wilson } else { Base::draw };
    while counts.accepted < wanted {
        let base = draw(rng, task);
        for _ in 0..TRIES {
            let sheet = Sheet { book: base.aimed(rng), question: base.question() };
            counts.calls += 1;
            if differs(by, &sheet) {
                counts.differences += 1;
                if counts.differences <= SHOWN {
                    show("differs", &sheet);
                }
            }
            // No sheet depends on the answers before it.
            match shown_by(by, &mut rng.clone(), &sheet) {
                Shown::Refused(_) => continue,
                Shown::Equal => {}
                failed => {
                    counts.failures += 1;
                    if counts.failures <= SHOWN {
                        show(&format!("{failed:?}"), &sheet);
                    }
                }
            }
            add(&mut counts, &sheet);
        }
    }
    counts
}

fn shown_by(by: Stage, rng: &mut Rng, sheet: &Sheet) -> Shown {
    match by {
        Stage::Distance => distance_shown(rng, sheet),
        _ => shown(rng, call_of(by), sheet),
    }
}

/// Whether the core answers a sheet otherwise than the reference's plain call, or finds another distance.
fn differs(by: Stage, sheet: &Sheet) -> bool {
    if by == Stage::Distance {
        return distance_differs(sheet);
    }
    let [a, b] = [call_of(by), reference].map(|call| {
        let mut answer = [0xa5; ANSWER_BYTES];
        (call(&sheet.book, &sheet.question, &mut answer), answer)
    });
    a != b
}

fn add(counts: &mut Counts, sheet: &Sheet) {
    let (feed, kept) = (sheet.feed(), sheet.kept());
    counts.accepted += 1;
    counts.by_mass += usize::from(sheet.by_mass());
    counts.third += usize::from(rule_of(&sheet.book) == Rule::Running);
    for (zero, seen) in [0.0f64, -0.0].iter().zip(&mut counts.zeros) {
        *seen += usize::from(feed.iter().any(|z| z.to_bits() == zero.to_bits()));
    }
    counts.several += usize::from(kept.len() + 1 < feed.len());
    counts.alone += usize::from(kept.len() == 1);
}

fn print(task: u64, counts: &Counts) {
    let Counts { calls, accepted, by_mass, third, zeros: [plus, minus], several, alone, failures, differences } =
        counts;
    println!(
        "task {task}: {calls} asked, {accepted} accepted ({by_mass} by mass, {third} of version 3, {plus} with +0, {minus} with -0, {several} with two absent and more, {alone} with one kept), {failures} failures, {differences} differences"
    );
}

fn show(what: &str, sheet: &Sheet) {
    let mut line = String::new();
    hex_bytes(&mut line, &sheet.book);
    hex_bytes(&mut line, &sheet.question);
    println!("{what}:{line}");
}
