//! Sheets of version 2 books: feeds by mass, molar masses and words 27 of all kinds; and those at the borders of 34, 35 and 36.

use super::books::{self, put};
use super::cases::{Kind, TASKS};
use super::feeds::{self, Absent};
use super::questions::{self, Draft};
use super::small::{blocks, bytes, Ask};
use super::{beside, numbers, Rng};
use crate::helpers;
use crate::sheet::blocks::Words;
use crate::sheet::book::MOLAR_MASS;
use crate::sheet::question::{mole_feed, BASIS, BY_MASS, BY_MOLES, FRACTIONS};
use crate::sheet::{open_book, Book, ANSWER_BYTES};
use crate::stage::Case;

/// Water, methanol, ethanol, acetone, 2-propanol, toluene, kg/mol.
const KNOWN: [f64; 6] = [0.018015268, 0.03204186, 0.04606844, 0.05807914, 0.06009502, 0.0921384];

/// Molar masses that are none.
const NO_MASS: [f64; 8] = [
    0.0,
    -0.0,
    -1.0,
    -0.018015268,
    f64::NAN,
    f64::INFINITY,
    f64::NEG_INFINITY,
    f64::MIN, // the lowest float
];

/// Words that are neither 0 nor 1: other counts, and 1.0 and −0.0 as floats.
pub(super) const NEITHER: [u64; 9] =
    [2, 3, 1 << 32, 1 << 32 | 1, 1 << 63, 1 << 63 | 1, 0x3ff0_0000_0000_0000, u64::MAX, 0x0100_0000_0000_0000];

/// Versions that are none: other counts, and 2.0 as a float.
const NO_VERSION: [u64; 7] = [0, 5, 4, 1 << 32 | 1, 1 << 32 | 2, 1 << 63 | 2, 0x4000_0000_0000_0000];

/// What is particular about a sheet.
#[derive(Debug, Clone, Copy, PartialEq, Eq)]
enum Part {
    /// A feed by mass, solvents as they are.
    Plain,
    /// Molar masses of any size.
    WildMass,
    /// Extreme data and molar mass of a solvent that is absent.
    WildAbsent,
    WildBook,
    /// A mass fraction near the smallest floats.
    Trace,
    /// Moles that overflow, or nearly.
    Overflow,
    NoMass,
    NoBasis,
    /// A feed by moles.
    Moles,
    /// Of version 1, where word 45 is not read.
    VersionOne,
    NoVersion,
    Edge,
    DamagedQuestion,
    DamagedBook,
}

impl Part {
    fn draw(rng: &mut Rng) -> Self {
        match rng.below(100) {
            0..=43 => Part::Plain,
            44..=57 => Part::WildMass,
            58..=68 => Part::WildAbsent,
            69..=71 => Part::WildBook,
            72..=74 => Part::Trace,
            75..=78 => Part::Overflow,
            79..=81 => Part::NoMass,
            82..=84 => Part::NoBasis,
            85..=88 => Part::Moles,
            89..=90 => Part::VersionOne,
            91 => Part::NoVersion,
            92..=94 => Part::Edge,
            95..=97 => Part::DamagedQuestion,
            _ => Part::DamagedBook,
        }
    }

    fn kind(self) -> Kind {
        match self {
            Part::Plain | Part::Moles | Part::VersionOne => Kind::Realistic,
            Part::WildMass | Part::WildBook => Kind::WildBook,
            Part::WildAbsent => Kind::WildAbsent,
            Part::Trace => Kind::WildTrace,
            Part::Overflow | Part::NoBasis | Part::Edge => Kind::Edge,
            Part::DamagedQuestion => Kind::DamagedQuestion,
            Part::NoMass | Part::NoVersion | Part::DamagedBook => Kind::DamagedBook,
        }
    }
}

pub fn draw(rng: &mut Rng, n: usize) -> (Kind, Case) {
    let part = Part::draw(rng);
    (part.kind(), sheet(rng, n, part))
}

fn sheet(rng: &mut Rng, n: usize, part: Part) -> Case {
    let mut draft = books::realistic(rng, n);
    enter(rng, &mut draft);
    let victim = rng.below(n);
    if matches!(part, Part::WildAbsent | Part::WildBook) {
        books::make_wild(rng, &mut draft, victim);
    }
    let mut w = masses(rng, n);
    match part {
        Part::WildMass => {
            for i in 0..n {
                if rng.percent(60) {
                    put(&mut draft.blocks[1 + i], MOLAR_MASS, any_mass(rng));
                }
            }
        }
        Part::WildAbsent if n > 1 => {
            put(&mut draft.blocks[1 + victim], MOLAR_MASS, any_mass(rng));
            w = without(rng, n, victim);
        }
        Part::Trace if n > 1 => {
            put(&mut draft.blocks[1 + victim], MOLAR_MASS, if rng.one_in(2) { 2.0 } else { any_mass(rng) });
            w = without(rng, n, victim);
            w[victim] = f64::from_bits(rng.bits() >> rng.between(12, 63));
        }
        Part::Overflow => overflow(rng, &mut draft, &w),
        Part::Edge if rng.one_in(3) => books::at_the_edge(rng, &mut draft),
        _ => {}
    }
    let task = rng.pick(&TASKS);
    let Ok(opened) = open_book(&draft.bytes()) else {
        // A wild value that question 5, 8 or 9 refuses.
        let question = Ask::new(task, &w).word(BASIS, BY_MASS).bytes();
        return Case::Sheet { book: draft.bytes(), question, room: ANSWER_BYTES };
    };
    let of_moles = part == Part::Moles || part == Part::VersionOne || (part == Part::NoMass && rng.one_in(2));
    let mut question =
        if of_moles { questions::with_feed(rng, &opened, task, &w) } else { question(rng, &opened, task, &w) };
    let mut book = None;
    match part {
        Part::NoMass => {
            put(&mut draft.blocks[1 + victim], MOLAR_MASS, no_mass(rng));
            // Beside another no, half of the time.
            match rng.below(6) {
                0 | 1 => book = Some(books::damaged(rng, &draft, &[rng.clone().between(1, 9) as u32])),
                2 => damage(rng, &mut question),
                _ => {}
            }
        }
        Part::NoBasis => {
            question.words[BASIS] = neither(rng);
            if rng.one_in(3) {
                draft.blocks[0][1] = 1;
                question.words[BASIS] = if rng.one_in(2) { BY_MASS } else { neither(rng) };
            }
            if rng.one_in(3) {
                damage(rng, &mut question);
            }
        }
        Part::VersionOne => {
            draft.blocks[0][1] = 1;
            let mass = if rng.one_in(2) { numbers::any_bits(rng) } else { no_mass(rng) };
            put(&mut draft.blocks[1 + victim], MOLAR_MASS, mass);
        }
        Part::NoVersion => {
            draft.blocks[0][1] = rng.pick(&NO_VERSION);
            if rng.one_in(2) {
                put(&mut draft.blocks[1 + victim], MOLAR_MASS, no_mass(rng));
            }
        }
        Part::Edge => questions::at_the_edge(rng, &mut question),
        Part::DamagedQuestion => {
            for _ in 0..rng.between(1, 2) {
                damage(rng, &mut question);
            }
            if rng.one_in(3) {
                overflow(rng, &mut draft, &w);
            }
        }
        Part::DamagedBook => book = Some(books::spoiled(rng, &draft)),
        _ if rng.one_in(200) => questions::make_patient(&mut question, &draft.bytes()),
        _ => {}
    }
    let book = book.unwrap_or_else(|| draft.bytes());
    Case::Sheet { book, question: question.question(), room: question.room }
}

pub(super) fn damage(rng: &mut Rng, question: &mut Draft) {
    let number = rng.between(10, 23) as u32;
    questions::damage(rng, question, number);
}

/// A version 2 or 3 book, or one of no version; a molar mass that is none, and another damage, each in a third.
pub fn book(rng: &mut Rng, n: usize) -> Vec<u8> {
    let mut draft = books::any(rng, n);
    enter(rng, &mut draft);
    draft.blocks[0][1] = rng.pick(&[2, 3]);
    let i = rng.below(n);
    match rng.below(6) {
        0 | 1 => put(&mut draft.blocks[1 + i], MOLAR_MASS, no_mass(rng)),
        2 => put(&mut draft.blocks[1 + i], MOLAR_MASS, any_mass(rng)),
        _ => {}
    }
    if rng.one_in(20) {
        draft.blocks[0][1] = rng.pick(&NO_VERSION);
    }
    if rng.one_in(3) {
        let number = rng.between(1, 9) as u32;
        return books::damaged(rng, &draft, &[number]);
    }
    draft.bytes()
}

/// Makes a version 2 book of it, with the molar masses of solvents.
pub fn enter(rng: &mut Rng, draft: &mut books::Draft) {
    draft.blocks[0][1] = 2;
    for i in 0..draft.n {
        let mass = if rng.one_in(3) { rng.pick(&KNOWN) } else { rng.range(0.018, 0.2) };
        put(&mut draft.blocks[1 + i], MOLAR_MASS, mass);
    }
}

/// Finite and positive, from the smallest float to the largest, kg/mol.
pub fn any_mass(rng: &mut Rng) -> f64 {
    match rng.below(6) {
        0 => rng.pick(&[f64::from_bits(1), f64::MAX, f64::MIN_POSITIVE, 1.7e308, 1.0, 2.0]),
        1 => f64::from_bits((rng.bits() >> 12).max(1)),
        2 => rng.decade(290.0, 308.2),
        3 => rng.decade(-3.0, 0.0),
        _ => numbers::positive(rng),
    }
}

pub(super) fn no_mass(rng: &mut Rng) -> f64 {
    match rng.below(3) {
        0 => -any_mass(rng),
        1 => numbers::not_finite(rng),
        _ => rng.pick(&NO_MASS),
    }
}

pub(super) fn neither(rng: &mut Rng) -> u64 {
    if rng.one_in(4) {
        rng.bits().max(2)
    } else {
        rng.pick(&NEITHER)
    }
}

/// Mass fractions; two feeds of three have absent solvents, +0 or −0, where there are several.
pub(super) fn masses(rng: &mut Rng, n: usize) -> Vec<f64> {
    let absent = match rng.below(12) {
        0..=3 => Absent::None,
        4..=10 => Absent::Some,
        _ => Absent::AllButOne,
    };
    loop {
        let w = feeds::feed_with(rng, n, absent);
        if n == 1 || absent == Absent::None || w.contains(&0.0) {
            return w;
        }
    }
}

pub(super) fn without(rng: &mut Rng, n: usize, absent: usize) -> Vec<f64> {
    let mut w = feeds::feed_with(rng, n, Absent::None);
    w[absent] = 0.0;
    let mut w = helpers::shares(w);
    w[absent] = rng.pick(&[0.0, -0.0]);
    w
}

/// Molar masses so small that a feed's moles, or their sum, overflow; or the next ones that don't.
pub(super) fn overflow(rng: &mut Rng, draft: &mut books::Draft, w: &[f64]) {
    let present: Vec<usize> = (0..w.len()).filter(|i| w[*i] > 0.0).collect();
    let i = rng.pick(&present);
    match rng.below(4) {
        0 => put(&mut draft.blocks[1 + i], MOLAR_MASS, f64::from_bits(1)),
        1 => put(&mut draft.blocks[1 + i], MOLAR_MASS, beside(rng, w[i] / f64::MAX).max(f64::from_bits(1))),
        2 => {
            // Each is finite.
            let share = f64::MAX / present.len() as f64;
            for i in present {
                put(&mut draft.blocks[1 + i], MOLAR_MASS, beside(rng, w[i] / share).max(f64::from_bits(1)));
            }
        }
        _ => put(&mut draft.blocks[1 + i], MOLAR_MASS, f64::from_bits((rng.bits() >> rng.between(13, 60)).max(1))),
    }
}

/// The same for a feed of its own, in a book of any version.
pub(super) fn enter_overflow(rng: &mut Rng, draft: &mut books::Draft) {
    if draft.blocks[0][1] == 1 {
        enter(rng, draft);
    }
    let w = masses(rng, draft.n);
    overflow(rng, draft, &w);
}

/// A question by mass that is answerable where its book's model is: near the saturation points of the mole feed.
pub fn question(rng: &mut Rng, book: &Book, task: u64, w: &[f64]) -> Draft {
    let molar_masses = book.molar_masses.as_ref().expect("a version 2 book");
    let x = mole_feed(w, molar_masses).unwrap_or_else(|_| w.to_vec());
    let mut draft = questions::with_feed(rng, book, task, &x);
    let z: Vec<f64> = (0..w.len()).map(|i| draft.get(FRACTIONS + i)).collect();
    // Tasks 8 and 9 may have drawn a mole feed of their own.
    let back = helpers::shares(z.iter().zip(molar_masses).map(|(z, mass)| z * mass).collect());
    let own = z != x && back.iter().all(|v| v.is_finite());
    draft.put_all(FRACTIONS, if own { &back } else { w });
    draft.words[BASIS] = BY_MASS;
    draft
}

/// Blocks of a version 2 book as `small` has them: one solvent for each molar mass.
pub fn entered(molar_masses: &[f64]) -> Vec<Words> {
    let reducing: Vec<f64> = (0..molar_masses.len()).map(|i| [4e6, 1e6, 2e6][i % 3]).collect();
    let mut all = blocks(&reducing, [0.4, 0.7]);
    all[0][1] = 2;
    for (words, mass) in all[1..].iter_mut().zip(molar_masses) {
        put(words, MOLAR_MASS, *mass);
    }
    all
}

/// A question by mass, with K for two or three solvents.
pub fn ask(task: u64, w: &[f64]) -> Ask {
    Ask::new(task, w).under(5e4).k(&[2.0, 0.5, 1.5]).word(BASIS, BY_MASS)
}

/// Sheets at the borders of 34, 35 and 36, with their numbers; compared before any others and stored for the replay.
pub fn borders() -> Vec<(Case, u32)> {
    let case = |(book, ask, number): (Vec<Words>, Ask, u32)| {
        let book = bytes(&book);
        let question = ask.bytes_for(&book);
        (Case::Sheet { book, question, room: ANSWER_BYTES }, number)
    };
    [answers(), overflows(), no_masses(), no_bases()].into_iter().flatten().map(case).collect()
}

type Asked = (Vec<Words>, Ask, u32);

const TINY: f64 = f64::from_bits(1);
const PLAIN: [f64; 2] = [0.018, 0.046];

/// Each task by mass, with absent solvents of both signs, and a trace whose mole fraction is 0.
fn answers() -> Vec<Asked> {
    let mut asked = Vec::new();
    for task in 1..=9 {
        asked.push((entered(&PLAIN), ask(task, &[0.3, 0.7]), 0));
    }
    for task in [1, 2, 3, 7, 8] {
        asked.push((entered(&[0.018, TINY, 0.046]), ask(task, &[0.3, -0.0, 0.7]), 0));
        asked.push((entered(&[0.018, f64::MAX, 0.046]), ask(task, &[0.3, 0.0, 0.7]), 0));
        asked.push((entered(&[0.018, 2.0, 0.046]), ask(task, &[0.3, TINY, 0.7]), 0));
    }
    asked
}

/// Moles that are finite, their sum too, and the next that overflow.
fn overflows() -> Vec<Asked> {
    let least = least_mass(1.0);
    let below = f64::from_bits(least.to_bits() - 1);
    let one = |mass: f64, number| (entered(&[mass]), ask(2, &[1.0]), number);
    // Moles that are finite, with a sum that overflows.
    let half = least_mass(0.5);
    let both = |task, mass: f64, number| (entered(&[mass, mass]), ask(task, &[0.5, 0.5]), number);
    let tiny = |ask: Ask, number| (entered(&[TINY, 0.046]), ask, number);
    vec![
        one(least, 0),
        one(below, 34),
        one(TINY, 34),
        one(f64::MAX, 0),
        both(1, least, 0),
        both(1, below, 34),
        both(1, half, 34),
        both(9, below, 34),
        // Ahead of 19 and 21; after 13, 14, 15 to 18.
        tiny(ask(3, &[0.3, 0.7]).float(13, 1.0), 34),
        tiny(ask(8, &[0.3, 0.7]).limits(1_000_001), 34),
        tiny(ask(2, &[0.3, 0.7]).at(0.0), 13),
        tiny(ask(4, &[0.3, 0.7]).under(-1.0), 14),
        tiny(ask(1, &[0.3, f64::NAN]), 15),
        tiny(ask(9, &[0.3, 0.7]).k(&[2.0, f64::INFINITY]), 15),
        tiny(ask(6, &[1.3, -0.3]), 16),
        tiny(ask(9, &[0.3, 0.7]).k(&[2.0, 0.0]), 17),
        tiny(ask(5, &[0.3, 0.7000000002]), 18),
    ]
}

/// The smallest molar mass that a mass fraction can be divided by.
pub fn least_mass(w: f64) -> f64 {
    let mut mass = w / f64::MAX;
    while (w / mass).is_finite() {
        mass = f64::from_bits(mass.to_bits() - 1);
    }
    f64::from_bits(mass.to_bits() + 1)
}

/// Molar masses that are none, also where the question is by moles; after 5 and ahead of 6, 10 and 11.
fn no_masses() -> Vec<Asked> {
    let moles = ask(2, &[0.3, 0.7]).word(BASIS, BY_MOLES);
    let mut asked: Vec<Asked> = NO_MASS.iter().map(|mass| (entered(&[0.018, *mass]), moles, 35)).collect();
    asked.push((entered(&[-TINY, 0.046]), ask(9, &[0.3, 0.7]), 35));
    asked.push((entered(&[TINY, f64::MAX]), moles, 0));
    // A solvent twice (6), and a range that is none (5).
    let mut twice = entered(&[0.0, 0.046]);
    twice[2][2] = twice[1][2];
    asked.push((twice.clone(), moles, 35));
    twice[2][5] = 0;
    asked.push((twice, moles, 5));
    asked.push((entered(&[0.0, 0.046]), moles.word(0, 7), 35));
    // Not read in a version 1 book.
    let mut first = entered(&[0.0, f64::NAN]);
    first[0][1] = 1;
    asked.push((first.clone(), moles, 0));
    first[0][1] = 3;
    asked.push((first.clone(), moles, 35));
    first[0][1] = 4;
    asked.push((first, moles, 38));
    asked
}

/// Words 27; after 12 and ahead of 13, and in every task.
fn no_bases() -> Vec<Asked> {
    let plain = || entered(&PLAIN);
    let mut first = plain();
    first[0][1] = 1;
    let mut asked: Vec<Asked> =
        NEITHER.iter().map(|word| (plain(), ask(2, &[0.3, 0.7]).word(BASIS, *word), 36)).collect();
    for task in 1..=9 {
        asked.push((first.clone(), ask(task, &[0.3, 0.7]), 36));
    }
    asked.push((first.clone(), ask(8, &[0.3, 0.7]).word(BASIS, 2), 36));
    asked.push((first, ask(8, &[0.3, 0.7]).word(BASIS, BY_MOLES), 0));
    asked.push((plain(), ask(10, &[0.3, 0.7]).word(BASIS, 2), 12));
    asked.push((plain(), ask(2, &[0.3, 0.7]).at(-1.0).word(BASIS, 2), 36));
    asked
}
