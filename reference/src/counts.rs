//! How often the generator's sheets are accepted, and refused by each number.

mod distances;
mod drums;
mod feeds;
mod flashes;
mod kinds;
mod limits;
mod pairs;
mod places;
mod queues;
mod sentences;
mod slices;

use std::collections::BTreeMap;

use distances::Distances;
use drums::Drums;
use feeds::Feeds;
use flashes::Flashes;
use limits::Raised;
use pairs::Pairs;
use places::Places;
use queues::Queues;
use sentences::Sentences;
use slices::Slices;

use crate::generate::cases::{Cases, Kind};
use crate::generate::exchanged::{Exchange, PLACES};
use crate::sheet::blocks::{rule_of, words_of, Rule, BLOCK};
use crate::sheet::book::WILSON;
use crate::sheet::feeds::FEED;
use crate::sheet::pool::pool;
use crate::sheet::question::{BASIS, BY_MASS, FRACTIONS, TASK};
use crate::sheet::reply::REFUSAL;
use crate::stage::{bytes_as_words, parts, Case, Found, Stage};
use crate::with::With;

/// Counts by refusal number; 0 is an answer.
#[derive(Debug, Clone, Default)]
pub struct Tally {
    pub numbers: BTreeMap<u32, usize>,
    /// Accepted ones with an absent solvent.
    pub absent: usize,
}

impl Tally {
    pub fn add(&mut self, number: u32) {
        *self.numbers.entry(number).or_default() += 1;
    }

    fn join(&mut self, other: &Self) {
        for (number, count) in &other.numbers {
            *self.numbers.entry(*number).or_default() += count;
        }
        self.absent += other.absent;
    }

    pub fn all(&self) -> usize {
        self.numbers.values().sum()
    }

    pub fn accepted(&self) -> usize {
        self.numbers.get(&0).copied().unwrap_or(0)
    }

    /// "13:5 14:2", or "none".
    pub fn refused(&self) -> String {
        let refused = self.numbers.iter().filter(|(number, _)| **number != 0);
        let refused: Vec<String> = refused.map(|(number, count)| format!("{number}:{count}")).collect();
        if refused.is_empty() {
            "none".into()
        } else {
            refused.join(" ")
        }
    }

    pub fn percent_accepted(&self) -> f64 {
        100.0 * self.accepted() as f64 / self.all().max(1) as f64
    }
}

/// Counts of all sheets, of the realistic ones, of those with nothing damaged or beside an edge, of those by mass, and of those of
/// Wilson books, by task.
#[derive(Debug, Default)]
pub struct SheetCounts {
    all: BTreeMap<u64, Tally>,
    realistic: BTreeMap<u64, Tally>,
    ordinary: BTreeMap<u64, usize>,
    /// Feeds by mass on books that have molar masses.
    by_mass: BTreeMap<u64, Tally>,
    wilson: BTreeMap<u64, Tally>,
}

impl SheetCounts {
    fn add(&mut self, kind: Kind, case: &Case, found: &Found) {
        outcomes(case, found).into_iter().for_each(|outcome| self.add_outcome(kind, case, outcome));
    }

    fn add_outcome(&mut self, kind: Kind, case: &Case, outcome: Outcome) {
        let Some((book, question)) = case.sheet() else { return };
        let words = if question.len() == BLOCK { words_of(question) } else { [0; 64] };
        let task = task_of(question);
        let mut tallies = vec![self.all.entry(task).or_default()];
        *self.ordinary.entry(task).or_default() += usize::from(kind.is_ordinary());
        if kind == Kind::Realistic {
            tallies.push(self.realistic.entry(task).or_default());
        }
        if words[BASIS] == BY_MASS && matches!(version(book), Some(2 | 3)) {
            tallies.push(self.by_mass.entry(task).or_default());
        }
        if is_wilson(book) {
            tallies.push(self.wilson.entry(task).or_default());
        }
        for tally in tallies {
            tally.add(outcome.number);
            tally.absent += usize::from(outcome.absent);
        }
    }

    fn print(&self) {
        for (task, tally) in &self.all {
            let realistic = self.realistic.get(task).cloned().unwrap_or_default();
            println!(
                "task {task}: {} asked, {} of them realistic or wild, {} accepted ({:.0}%; realistic {:.0}%), {} with absent solvents ({:.0}%), refused {}",
                tally.all(),
                self.ordinary.get(task).copied().unwrap_or(0),
                tally.accepted(),
                tally.percent_accepted(),
                realistic.percent_accepted(),
                tally.absent,
                100.0 * tally.absent as f64 / tally.accepted().max(1) as f64,
                tally.refused()
            );
        }
        print_part("by mass", &self.by_mass);
        print_part("of Wilson books", &self.wilson);
        if !self.wilson.is_empty() {
            print_tally("of Wilson books, tasks 1 to 7", &joined(self.wilson.range(1..=7)));
        }
    }
}

fn joined<'a>(tallies: impl IntoIterator<Item = (&'a u64, &'a Tally)>) -> Tally {
    let mut sum = Tally::default();
    tallies.into_iter().for_each(|(_, tally)| sum.join(tally));
    sum
}

fn print_part(what: &str, tallies: &BTreeMap<u64, Tally>) {
    for (task, tally) in tallies {
        print_tally(&format!("task {task} {what}"), tally);
    }
    if !tallies.is_empty() {
        print_tally(what, &joined(tallies));
    }
}

fn print_tally(what: &str, tally: &Tally) {
    println!(
        "{what}: {} asked, {} accepted, {} with absent solvents, refused {}",
        tally.all(),
        tally.accepted(),
        tally.absent,
        tally.refused()
    );
}

/// Sheets of version 3 books by task, and what became of exchanged words, by the core's numbers.
#[derive(Debug)]
pub struct Exchanges {
    third: BTreeMap<u64, Tally>,
    places: [usize; PLACES],
    /// In block 0, in solvents and in pairs.
    blocks: [usize; 3],
    books: Tally,
    questions: Tally,
    /// Exchanges that the book, or the question, was not refused for.
    pub let_through: usize,
}

impl Default for Exchanges {
    fn default() -> Self {
        let (books, questions) = Default::default();
        Self { third: BTreeMap::new(), places: [0; PLACES], blocks: [0; 3], books, questions, let_through: 0 }
    }
}

impl Exchanges {
    pub fn add(&mut self, case: &Case, exchange: Option<Exchange>, number: u64) {
        let Case::Sheet { book, question, .. } = case else { return };
        let number = number as u32;
        if rule_of(book) == Rule::Running {
            self.third.entry(task_of(question)).or_default().add(number);
        }
        let refused = match exchange {
            None => return,
            Some(Exchange::Book { block, n, place }) => {
                self.places[place] += 1;
                self.blocks[usize::from(block > 0) + usize::from(block > n)] += 1;
                self.books.add(number);
                matches!(number, 2 | 3 | 38)
            }
            Some(Exchange::Question { .. }) => {
                self.questions.add(number);
                // The book, or its answer slice, may have been refused first.
                matches!(number, 4..=11 | 35 | 37)
            }
        };
        self.let_through += usize::from(!refused);
    }

    pub fn print(&self) {
        let mut sum = Tally::default();
        for (task, tally) in &self.third {
            print_version_3(&format!("task {task} of version 3"), tally);
            sum.join(tally);
        }
        print_version_3("version 3", &sum);
        let [heads, solvents, pairs] = self.blocks;
        println!(
            "exchanged in books that pass 1 to 3: {} ({heads} in block 0, {solvents} in solvents, {pairs} in pairs; each of {PLACES} places at least {} times), refused {}",
            self.books.all(),
            self.places.iter().min().copied().unwrap_or(0),
            self.books.refused()
        );
        println!("exchanged in questions: {}, refused {}", self.questions.all(), self.questions.refused());
        println!("exchanges let through: {}", self.let_through);
    }
}

fn print_version_3(what: &str, tally: &Tally) {
    println!("{what}: {} asked, {} accepted, refused {}", tally.all(), tally.accepted(), tally.refused());
}

/// Tasks that are none count as 0.
fn task_of(question: &[u8]) -> u64 {
    if question.len() == BLOCK {
        Some(words_of(question)[TASK]).filter(|task| *task <= 9).unwrap_or(0)
    } else {
        0
    }
}

fn version(book: &[u8]) -> Option<u64> {
    book.get(..BLOCK).map(|head| words_of(head)[1])
}

/// Of a version that has the model.
fn is_wilson(book: &[u8]) -> bool {
    book.get(..BLOCK).is_some_and(|head| matches!(words_of(head)[1..4], [2 | 3, _, WILSON]))
}

/// What became of a feed.
struct Outcome {
    number: u32,
    /// Accepted, with an absent solvent.
    absent: bool,
}

/// One of a call, or one of each feed where the call has many and wasn't ended.
fn outcomes(case: &Case, found: &Found) -> Vec<Outcome> {
    let Some((book, question)) = case.sheet() else { return Vec::new() };
    let has_zero = |bytes: &[u8]| {
        let n = words_of(&book[..BLOCK])[2] as usize;
        bytes_as_words(bytes)[..n].iter().any(|word| f64::from_bits(*word) == 0.0)
    };
    match case {
        Case::With { with: With::Feeds, lent, .. } if found.refusal == 0 => {
            let feeds = lent.chunks(FEED).zip(parts(&found.words, lent.len() / FEED));
            let outcome = |(feed, part): (&[u8], &[u64])| {
                let number = part[REFUSAL] as u32;
                Outcome { number, absent: number == 0 && has_zero(feed) }
            };
            feeds.map(outcome).collect()
        }
        // Its questions are counted by themselves.
        Case::With { with: With::Allowance, .. } => Vec::new(),
        Case::With { with: With::Drums, lent, .. } => {
            let lacking = |n: usize| pool(lent, n).is_ok_and(|counts| counts.contains(&0));
            vec![Outcome {
                number: found.refusal,
                absent: found.refusal == 0 && lacking(words_of(&book[..BLOCK])[2] as usize),
            }]
        }
        _ => {
            vec![Outcome { number: found.refusal, absent: found.refusal == 0 && has_zero(&question[8 * FRACTIONS..]) }]
        }
    }
}

/// All that is told of a stage's cases.
#[derive(Debug, Default)]
pub struct Counts {
    /// Of the calls.
    pub all: Tally,
    sheets: SheetCounts,
    drums: Drums,
    feeds: Feeds,
    pairs: Pairs,
    queues: Queues,
    raised: Raised,
    distances: Distances,
    slices: Slices,
    places: Places,
    sentences: Sentences,
    pub flashes: Flashes,
}

impl Counts {
    pub fn add(&mut self, kind: Kind, case: &Case, found: &Found) {
        if let Case::Raised { asked, .. } = case {
            self.raised.add(case, found);
            return self.add(kind, asked, found);
        }
        if let Case::Placed { asked, .. } = case {
            self.places.add(case, found);
            return self.add(kind, asked, found);
        }
        self.all.add(found.refusal);
        self.sheets.add(kind, case, found);
        self.drums.add(case, found.refusal);
        self.feeds.add(case, found);
        self.pairs.add(case, found.refusal);
        self.queues.add(case, found);
        self.distances.add(case, found);
        self.slices.add(case, found.refusal);
        self.sentences.add(case, found);
        self.flashes.add(case, found);
    }

    pub fn print(&self, stage: Stage) {
        self.sheets.print();
        match stage {
            Stage::Pooled => self.drums.print(),
            Stage::Feeds => self.feeds.print(),
            Stage::Preview => self.pairs.print(),
            Stage::Queue => self.queues.print(),
            Stage::Limits => self.raised.print(),
            Stage::Distance => self.distances.print(),
            Stage::Readers => self.slices.print(),
            Stage::Place => self.places.print(),
            Stage::Sentence => self.sentences.print(),
            _ => {}
        }
        self.flashes.print();
    }
}

/// Sheets counted by the reference alone.
pub fn count_sheets(stage: Stage, seed: u64, count: usize) -> Counts {
    let mut cases = Cases::new(stage, seed, false);
    let mut counts = Counts::default();
    for _ in 0..count {
        let (kind, case) = cases.draw();
        counts.add(kind, &case, &case.expected());
    }
    counts
}

/// Cases of any other stage counted by the reference alone.
pub fn count_stage(stage: Stage, seed: u64, count: usize) -> Tally {
    let mut tally = Tally::default();
    for case in Cases::new(stage, seed, false).take(count) {
        tally.add(case.expected().refusal);
    }
    tally
}
