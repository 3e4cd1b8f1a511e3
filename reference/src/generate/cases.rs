//! The cases of each stage.

use super::exchanged::Exchange;
use super::{
    batches, books, differences, distances, exchanged, feeds, limits, mass, numbers, places, pooled, previews,
    questions, queues, readers, rice, sentences, small, wilson, Rng,
};
use crate::sheet::open_book;
use crate::stage::{Case, Function, Stage};

/// Tasks of the sheets: those with solvers come twice as often.
pub(super) const TASKS: [u64; 15] = [1, 2, 2, 3, 3, 4, 4, 5, 5, 6, 6, 7, 7, 8, 9];

/// How a sheet was made.
#[derive(Debug, Clone, Copy, PartialEq, Eq, PartialOrd, Ord)]
pub enum Kind {
    Realistic,
    /// Extreme data of a solvent that is absent from the feed.
    WildAbsent,
    WildBook,
    /// Extreme data of a solvent whose fraction is near the smallest floats.
    WildTrace,
    WildQuestion,
    Edge,
    DamagedQuestion,
    DamagedBook,
}

impl Kind {
    /// Whether book and question are those of a call that might be made: ordinary or extreme, nothing damaged or beside an edge.
    pub fn is_ordinary(self) -> bool {
        matches!(self, Kind::Realistic | Kind::WildAbsent | Kind::WildBook | Kind::WildTrace)
    }
}

/// Cases of one stage, in the order of a seed.
pub struct Cases {
    rng: Rng,
    stage: Stage,
    /// Small books only, for stored samples.
    compact: bool,
    /// Cases that come before the random ones.
    first: std::vec::IntoIter<Case>,
    /// Where the stage is of version 3 books.
    third: Option<Box<exchanged::Sheets>>,
    /// Where the stage is of raised limits.
    raised: Option<Box<limits::Calls>>,
    /// Where it is of answer slices.
    slices: Option<Box<readers::Slices>>,
    /// Where it is of places.
    placed: Option<Box<places::Calls>>,
    exchange: Option<Exchange>,
}

impl Cases {
    pub fn new(stage: Stage, seed: u64, compact: bool) -> Self {
        let first = match stage {
            Stage::Numbers if !compact => edge_numbers(),
            Stage::Sheet if !compact => {
                let full = queues::full().into_iter().map(|found| found.case());
                small::others().into_iter().map(|(case, _)| case).chain(differences::cases()).chain(full).collect()
            }
            Stage::Mass if !compact => mass::borders().into_iter().map(|(case, _)| case).collect(),
            Stage::Exchanged if !compact => exchanged::borders().into_iter().map(|(case, _)| case).collect(),
            Stage::Wilson if !compact => wilson::borders().into_iter().map(|(case, _)| case).collect(),
            Stage::Pooled if !compact => pooled::borders().into_iter().map(|(case, _)| case).collect(),
            Stage::Feeds if !compact => batches::borders().into_iter().map(|(case, _)| case).collect(),
            Stage::Preview if !compact => previews::borders().into_iter().map(|(case, _)| case).collect(),
            Stage::Queue if !compact => queues::borders().into_iter().map(|(case, _)| case).collect(),
            Stage::Limits if !compact => limits::borders().into_iter().map(|(case, ..)| case).collect(),
            Stage::Distance if !compact => distances::borders().into_iter().map(|(case, _)| case).collect(),
            Stage::Readers if !compact => readers::borders().into_iter().map(|(case, _)| case).collect(),
            Stage::Place if !compact => places::borders().into_iter().map(|border| border.case).collect(),
            Stage::Sentence if !compact => sentences::borders(),
            _ => Vec::new(),
        };
        let rng = if compact { Rng::tidy(seed) } else { Rng::new(seed) };
        let third = (stage == Stage::Exchanged).then(|| Box::new(exchanged::Sheets::new(seed, compact)));
        let raised = (stage == Stage::Limits).then(|| Box::new(limits::Calls::new(seed, compact)));
        let slices = (stage == Stage::Readers).then(|| Box::new(readers::Slices::new(seed, compact)));
        let placed = (stage == Stage::Place).then(|| Box::new(places::Calls::new(seed, compact)));
        Self { rng, stage, compact, first: first.into_iter(), third, raised, slices, placed, exchange: None }
    }

    /// The random ones alone.
    pub(super) fn without_borders(mut self) -> Self {
        self.first = Vec::new().into_iter();
        self
    }

    /// What was exchanged in the case drawn last.
    pub fn exchange(&self) -> Option<Exchange> {
        self.exchange
    }

    fn solvents(&mut self) -> usize {
        if self.compact {
            self.rng.pick(&[1, 2, 2, 2, 3])
        } else {
            self.rng.between(1, 8)
        }
    }

    /// The next case and, for a sheet, how it was made.
    pub fn draw(&mut self) -> (Kind, Case) {
        if let Some(case) = self.first.next() {
            return (Kind::Edge, case);
        }
        if let Some(third) = &mut self.third {
            let drawn = third.draw();
            self.exchange = drawn.exchange;
            return (drawn.kind, drawn.case);
        }
        if let Some(calls) = &mut self.raised {
            return calls.draw();
        }
        if let Some(slices) = &mut self.slices {
            return (Kind::Realistic, slices.draw());
        }
        if let Some(calls) = &mut self.placed {
            return calls.draw();
        }
        let n = self.solvents();
        match self.stage {
            Stage::Sheet => return self.draw_sheet(n),
            Stage::Mass => return mass::draw(&mut self.rng, n),
            Stage::Wilson => return wilson::draw(&mut self.rng, n),
            Stage::Pooled => return pooled::draw(&mut self.rng, n),
            Stage::Feeds => return batches::draw(&mut self.rng, n),
            Stage::Preview => return previews::draw(&mut self.rng, n),
            Stage::Queue => return queues::draw(&mut self.rng, n),
            Stage::Distance => return distances::draw(&mut self.rng, n),
            Stage::Sentence => return (Kind::Realistic, sentences::draw(&mut self.rng, self.compact)),
            _ => {}
        }
        // The stored ones of versions 2 and 3 stand among the sheets.
        let later = matches!(self.stage, Stage::Book | Stage::Excess) && !self.compact && self.rng.one_in(3);
        let case = if later { later_versions } else { plain };
        (Kind::Realistic, case(&mut self.rng, self.stage, n))
    }

    fn draw_sheet(&mut self, n: usize) -> (Kind, Case) {
        let kind = match self.rng.below(100) {
            0..=54 => Kind::Realistic,
            55..=64 => Kind::WildAbsent,
            65..=71 => Kind::WildBook,
            72..=74 => Kind::WildTrace,
            75..=79 => Kind::WildQuestion,
            80..=86 => Kind::Edge,
            87..=94 => Kind::DamagedQuestion,
            _ => Kind::DamagedBook,
        };
        (kind, sheet(&mut self.rng, n, kind))
    }
}

impl Iterator for Cases {
    type Item = Case;

    fn next(&mut self) -> Option<Case> {
        Some(self.draw().1)
    }
}

/// Book and question of sheets of the stages that have them, by turns.
pub fn sheets(seed: u64) -> impl Iterator<Item = (Vec<u8>, Vec<u8>)> {
    let stages = [Stage::Sheet, Stage::Mass, Stage::Exchanged, Stage::Wilson];
    let mut stages = stages.map(|stage| Cases::new(stage, seed, false));
    (0usize..).map(move |turn| match stages[turn % 4].draw() {
        (_, Case::Sheet { book, question, .. }) => (book, question),
        _ => unreachable!("a sheet was asked for"),
    })
}

/// A case of any stage but those of sheets.
fn plain(rng: &mut Rng, stage: Stage, n: usize) -> Case {
    match stage {
        Stage::Numbers => number(rng),
        Stage::Fractions => fraction(rng, n),
        Stage::Book => Case::Book { book: book(rng, n) },
        Stage::Pressure => pressure(rng, n),
        Stage::Excess => excess(rng, n),
        _ => split(rng, n),
    }
}

/// On books of version 2 and 3.
fn later_versions(rng: &mut Rng, stage: Stage, n: usize) -> Case {
    match stage {
        Stage::Excess => wilson::excess(rng, n),
        _ if rng.one_in(2) => Case::Book { book: wilson::book(rng, n) },
        _ => Case::Book { book: mass::book(rng, n) },
    }
}

/// Each one-argument function at every edge.
fn edge_numbers() -> Vec<Case> {
    let functions =
        [Function::Exp, Function::Ln, Function::Abs, Function::IsFinite, Function::BitsOf, Function::FloatOf];
    let at = |a: u64| functions.map(|function| Case::Number { function, a, b: 0 });
    numbers::edges().into_iter().flat_map(at).collect()
}

fn number(rng: &mut Rng) -> Case {
    let one = |function, v: f64| Case::Number { function, a: v.to_bits(), b: 0 };
    let two = |function, (v, w): (f64, f64)| Case::Number { function, a: v.to_bits(), b: w.to_bits() };
    match rng.below(16) {
        0..=5 => one(Function::Exp, numbers::for_exp(rng)),
        6..=9 => one(Function::Ln, numbers::for_ln(rng)),
        10..=12 => two(Function::Powf, numbers::for_powf(rng)),
        13 => two(Function::Max, numbers::for_powf(rng)),
        14 => two(Function::Min, numbers::for_powf(rng)),
        _ => {
            let function = rng.pick(&[Function::Abs, Function::IsFinite, Function::BitsOf, Function::FloatOf]);
            one(function, numbers::for_ln(rng))
        }
    }
}

fn fraction(rng: &mut Rng, n: usize) -> Case {
    if rng.one_in(2) {
        Case::Fractions { x: feeds::any(rng, n), n }
    } else {
        Case::Normalize { x: feeds::amounts(rng, n), n }
    }
}

/// Right books and edges, and each damage alone and with another.
fn book(rng: &mut Rng, n: usize) -> Vec<u8> {
    let mut draft = books::any(rng, n);
    match rng.below(10) {
        0 => draft.bytes(),
        1..=2 => {
            books::at_the_edge(rng, &mut draft);
            draft.bytes()
        }
        3..=6 => {
            let number = rng.between(1, 9) as u32;
            books::damaged(rng, &draft, &[number])
        }
        _ => {
            let both = [rng.between(1, 9) as u32, rng.between(1, 9) as u32];
            books::damaged(rng, &draft, &both)
        }
    }
}

fn pressure(rng: &mut Rng, n: usize) -> Case {
    let draft = if rng.one_in(3) { books::realistic(rng, n) } else { books::any(rng, n) };
    let book = draft.bytes();
    let i = rng.below(n);
    let range = open_book(&book).map(|b| b.solvents[i].vapor_pressure.range).unwrap_or([273.16, 450.0]);
    let t = match rng.below(12) {
        0 => rng.pick(&range),
        1 => {
            let end = rng.pick(&range);
            super::beside(rng, end)
        }
        2 => numbers::any_bits(rng),
        3 => rng.range(200.0, 700.0),
        _ => rng.range(range[0], range[1]),
    };
    Case::Pressure { book, i, t }
}

fn excess(rng: &mut Rng, n: usize) -> Case {
    let draft = if rng.one_in(2) { books::realistic(rng, n) } else { books::any(rng, n) };
    let mut x: [f64; 8] = std::array::from_fn(|_| numbers::any_bits(rng));
    let feed = if rng.one_in(10) { feeds::any(rng, n)[..n].to_vec() } else { feeds::feed(rng, n) };
    x[..n].copy_from_slice(&feed);
    let t = match rng.below(12) {
        0 => numbers::any_bits(rng),
        1 => rng.decade(-300.0, 300.0),
        2 => rng.decade(0.0, 6.0),
        _ => rng.range(273.16, 450.0),
    };
    Case::Excess { book: draft.bytes(), t, x }
}

fn split(rng: &mut Rng, n: usize) -> Case {
    let (z, k, limit) = rice::any(rng, n);
    Case::Rice { negative: rng.one_in(2), z, k, n, limit }
}

fn sheet(rng: &mut Rng, n: usize, kind: Kind) -> Case {
    let mut draft = books::realistic(rng, n);
    let victim = rng.below(n);
    match kind {
        Kind::WildAbsent | Kind::WildBook => books::make_wild(rng, &mut draft, victim),
        Kind::WildTrace => books::make_extreme(rng, &mut draft, victim),
        Kind::Edge if rng.one_in(3) => books::at_the_edge(rng, &mut draft),
        _ => {}
    }
    let right = draft.bytes();
    let Ok(opened) = open_book(&right) else {
        // A wild value that questions 1 to 9 refuse.
        return Case::Sheet { book: right, question: Vec::new(), room: 0 };
    };
    let task = rng.pick(&TASKS);
    let mut question = match kind {
        Kind::WildAbsent => questions::without(rng, &opened, task, victim),
        Kind::WildTrace => questions::with_trace(rng, &opened, task, victim),
        _ => questions::realistic(rng, &opened, task),
    };
    let mut book = right;
    match kind {
        Kind::WildQuestion => questions::make_wild(rng, &mut question),
        Kind::Edge => questions::at_the_edge(rng, &mut question),
        Kind::DamagedQuestion => {
            for _ in 0..rng.between(1, 2) {
                let number = rng.between(10, 23) as u32;
                questions::damage(rng, &mut question, number);
            }
        }
        Kind::DamagedBook => book = books::spoiled(rng, &draft),
        _ if rng.one_in(200) => questions::make_patient(&mut question, &book),
        _ => {}
    }
    Case::Sheet { book, question: question.question(), room: question.room }
}
