//! Calls of tasks 3 to 9 that are made again with a limit raised, by 1, by some, to 1,000,000: those of the other stages, by turns, with
//! limits that are enough, just enough, or one too few.

use super::cases::{Cases, Kind};
use super::small::{book, bytes, Ask};
use super::{queues, Rng};
use crate::limits::{limits_of, Limits, HIGHEST, PLACES};
use crate::sheet::anew::word;
use crate::sheet::blocks::BLOCK;
use crate::sheet::question::{MAX_ITERATIONS, MAX_TEMPERATURE_ITERATIONS, TASK, TOLERANCE};
use crate::sheet::reply::REFUSAL;
use crate::sheet::ANSWER_BYTES;
use crate::stage::{parts, Case, Stage};

/// Limits near what a call needs.
const TIGHT: [u64; 10] = [1, 2, 3, 5, 8, 12, 18, 27, 40, 60];

/// Calls in the order of a seed.
pub struct Calls {
    rng: Rng,
    plain: [Cases; 4],
    /// Seldom drawn: one of them may hold 64 feeds.
    others: [Cases; 3],
}

impl Calls {
    pub fn new(seed: u64, compact: bool) -> Self {
        let of = |stage| Cases::new(stage, seed, compact);
        Self {
            rng: Rng::new(seed),
            plain: [Stage::Sheet, Stage::Mass, Stage::Exchanged, Stage::Wilson].map(of),
            others: [Stage::Pooled, Stage::Preview, Stage::Feeds].map(|stage| of(stage).without_borders()),
        }
    }

    pub fn draw(&mut self) -> (Kind, Case) {
        loop {
            let (kind, asked) = self.drawn();
            if has_limits(&asked) {
                let asked = tighten(&mut self.rng, asked);
                let limits = higher(&mut self.rng, &asked);
                return (kind, Case::Raised { asked: Box::new(asked), limits });
            }
        }
    }

    fn drawn(&mut self) -> (Kind, Case) {
        match self.rng.below(100) {
            0..=3 => self.others[0].draw(),
            4..=7 => self.others[1].draw(),
            8 => self.others[2].draw(),
            _ => self.plain[self.rng.below(4)].draw(),
        }
    }
}

/// Of tasks 3 to 9, one whole block.
fn has_limits(case: &Case) -> bool {
    case.sheet().is_some_and(|(_, question)| question.len() == BLOCK && (3..=9).contains(&word(question, TASK)))
}

fn question(case: &Case) -> &[u8] {
    case.sheet().expect("a sheet").1
}

/// The places of the limits that the task reads.
fn places(case: &Case) -> std::ops::Range<usize> {
    0..if word(question(case), TASK) > 7 { 1 } else { 2 }
}

fn is_accepted(case: &Case) -> bool {
    let words = case.expected().words;
    words[0] == 0 && parts(&words, case.parts()).all(|part| part[REFUSAL] == 0)
}

/// Limits as they were drawn, or near what the call needs: any, just enough, or one too few.
fn tighten(rng: &mut Rng, asked: Case) -> Case {
    let mut limits = limits_of(question(&asked));
    match rng.below(8) {
        0 | 1 => limits = PLACES.map(|_| rng.pick(&TIGHT)),
        2 if is_accepted(&asked) => {
            let k = rng.below(places(&asked).len());
            limits[k] = least(&asked, limits, k) - u64::from(rng.one_in(3));
        }
        _ => return asked,
    }
    asked.with_limits(limits)
}

/// The least limit, from 1 on, with which an accepted call is accepted.
fn least(asked: &Case, mut limits: Limits, k: usize) -> u64 {
    let (mut low, mut high) = (0, limits[k]);
    while high - low > 1 {
        limits[k] = low + (high - low) / 2;
        if is_accepted(&asked.with_limits(limits)) {
            high = limits[k];
        } else {
            low = limits[k];
        }
    }
    high
}

/// One limit or both raised, where the task reads both; one above the highest stays. What isn't accepted isn't raised far: it may take
/// seconds.
fn higher(rng: &mut Rng, asked: &Case) -> Limits {
    let mut limits = limits_of(question(asked));
    let which = if places(asked).len() == 1 { 0 } else { rng.below(3) };
    for k in places(asked).filter(|k| which == 2 || which == *k) {
        let most = HIGHEST.max(limits[k]);
        let by = match rng.below(4) {
            0 | 1 => 1,
            2 => rng.decade(0.0, 2.5) as u64,
            _ if is_accepted(asked) => HIGHEST,
            _ => rng.decade(0.0, 2.0) as u64,
        };
        limits[k] = limits[k].saturating_add(by).min(most);
    }
    limits
}

/// A call, its number as it is asked, and that with the limits raised.
pub type Border = (Case, u64, u64);

fn border(book: Vec<u8>, ask: Ask, limits: Limits, asked: u64, number: u64) -> Border {
    let question = ask.bytes_for(&book);
    let call = Case::Sheet { book, question, room: ANSWER_BYTES };
    (Case::Raised { asked: Box::new(call), limits }, asked, number)
}

fn two() -> Vec<u8> {
    book(&[4e6, 1e6], [0.0, 0.0])
}

/// Compared before any others.
pub fn borders() -> Vec<Border> {
    turns().into_iter().chain(others()).collect()
}

/// One turn too few, or just enough, and what comes of more.
pub fn turns() -> Vec<Border> {
    let mut all = Vec::new();
    // It takes two.
    let outside = Ask::new(9, &[0.25, 0.75]).k(&[2.0, 0.5]);
    for (own, raised, asked, number) in [
        (0, 1, 27, 27),
        (1, 2, 27, 0),
        (1, HIGHEST, 27, 0),
        (2, 3, 0, 0),
        (2, HIGHEST, 0, 0),
        (HIGHEST - 1, HIGHEST, 0, 0),
    ] {
        all.push(border(two(), outside.limits(own), [raised, own], asked, number));
    }
    // A single phase takes none.
    all.push(border(two(), Ask::new(8, &[0.5, 0.5]).k(&[0.5, 0.5]).limits(0), [1, 0], 0, 0));
    // The dew point, the split and each trial end in their last.
    for found in queues::full() {
        let full = || bytes(&found.book);
        for (own, asked) in [(found.limit - 1, 27), (found.limit, 0)] {
            all.push(border(full(), found.ask.limits(own), [own + 1, own], asked, 0));
            all.push(border(full(), found.ask.limits(own), [HIGHEST, HIGHEST], asked, 0));
        }
        // Neither limit stands in for the other.
        all.push(border(full(), found.ask.limits(found.limit - 1), [found.limit - 1, HIGHEST], 27, 27));
    }
    all
}

/// 20 comes no more, and other numbers stay.
fn others() -> Vec<Border> {
    let heavy = || book(&[1e6, 2e6], [0.1, 0.2]);
    let of_task = |task| {
        let ask = Ask::new(task, &[0.5, 0.5]).under(3e4);
        [
            border(heavy(), ask.word(MAX_ITERATIONS, 0), [200, 200], 20, 0),
            border(heavy(), ask.word(MAX_TEMPERATURE_ITERATIONS, 0), [200, 200], 20, 0),
            border(heavy(), ask.float(TOLERANCE, 0.0), [HIGHEST, HIGHEST], 19, 19),
            border(heavy(), ask.word(MAX_ITERATIONS, HIGHEST + 1), [HIGHEST + 1, HIGHEST], 21, 21),
        ]
    };
    (3..=7).flat_map(of_task).collect()
}
