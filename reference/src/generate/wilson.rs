//! Sheets of Wilson books: realistic ones, Λ at the ends of exp and of the floats, words 3 of block 0 of all sorts; and those at the
//! borders of 37, 7, 8 and 25.

use super::books::{self, put, Draft, BOUNDS, FLAG};
use super::cases::Kind;
use super::mass::{self, neither, NEITHER};
use super::questions;
use super::small::{bytes, Ask};
use super::{absent, beside, feeds, numbers, Rng};
use crate::helpers::{self, EXP_HIGH, EXP_LOW};
use crate::sheet::blocks::Words;
use crate::sheet::book::{due_pairs, MODEL, MOLAR_MASS, NRTL, WILSON};
use crate::sheet::question::{BASIS, BRACKET, BY_MOLES, TASK, TEMPERATURE, TM_THRESHOLD};
use crate::sheet::{open_book, ANSWER_BYTES};
use crate::stage::{padded, Case};

/// a_ij in a pair block; b_ij (K), a_ji and b_ji (K) follow. Words 7 to 14 are not read.
pub const TERMS: usize = 3;
const UNREAD: std::ops::Range<usize> = 7..15;

/// What is particular about a sheet.
#[derive(Debug, Clone, Copy, PartialEq, Eq)]
enum Part {
    Plain,
    /// Λ or a derivative at an end of exp or of the floats.
    WildPair,
    /// Both Λ of a pair so small that the Gibbs energy of mixing is nearly 0: distances of trials are roundings.
    Flat,
    /// As `WildPair`, of absent solvents.
    WildAbsent,
    WildBook,
    /// A fraction near the smallest floats.
    Trace,
    /// Word 3 of block 0 names no model of its version.
    NoModel,
    /// The pairs are read as NRTL's.
    Nrtl,
    /// A pair's float that is not finite, read or not.
    NotFinite,
    /// Moles that overflow, a molar mass or a word 27 that is none.
    Masses,
    Edge,
    DamagedQuestion,
    DamagedBook,
}

impl Part {
    fn draw(rng: &mut Rng) -> Self {
        match rng.below(100) {
            0..=43 => Part::Plain,
            44 => Part::Flat,
            45..=55 => Part::WildPair,
            56..=71 => Part::WildAbsent,
            72..=73 => Part::WildBook,
            74..=75 => Part::Trace,
            76..=79 => Part::NoModel,
            80..=82 => Part::Nrtl,
            83..=85 => Part::NotFinite,
            86..=88 => Part::Masses,
            89..=91 => Part::Edge,
            92..=95 => Part::DamagedQuestion,
            _ => Part::DamagedBook,
        }
    }

    fn kind(self) -> Kind {
        match self {
            Part::Plain | Part::Nrtl => Kind::Realistic,
            Part::WildPair | Part::Flat | Part::WildBook => Kind::WildBook,
            Part::WildAbsent => Kind::WildAbsent,
            Part::Trace => Kind::WildTrace,
            Part::Masses | Part::Edge => Kind::Edge,
            Part::DamagedQuestion => Kind::DamagedQuestion,
            Part::NoModel | Part::NotFinite | Part::DamagedBook => Kind::DamagedBook,
        }
    }
}

pub fn draw(rng: &mut Rng, n: usize) -> (Kind, Case) {
    let part = Part::draw(rng);
    (part.kind(), sheet(rng, n, part))
}

fn sheet(rng: &mut Rng, n: usize, part: Part) -> Case {
    let victim = rng.below(n);
    let mut draft = realistic(rng, n);
    let w = if part == Part::Trace && n > 1 { trace(rng, n, victim) } else { mass::masses(rng, n) };
    let before = rng.one_in(2);
    match part {
        Part::WildBook => books::make_wild(rng, &mut draft, victim),
        Part::WildPair if before => aim_all(rng, &mut draft, None),
        Part::Flat => draft.blocks[1 + n..].iter_mut().for_each(|words| flatten(rng, words)),
        Part::Trace => aim_pairs_of(rng, &mut draft, victim, None),
        Part::Nrtl if before => {
            draft = books::realistic(rng, n);
            mass::enter(rng, &mut draft);
        }
        _ => {}
    }
    let task = if rng.one_in(15) { rng.pick(&[8, 9]) } else { rng.between(1, 7) as u64 };
    let right = draft.bytes();
    let Ok(opened) = open_book(&right) else {
        // A wild value that question 5 refuses.
        let question = Ask::new(task, &w).bytes_for(&right);
        return Case::Sheet { book: right, question, room: ANSWER_BYTES };
    };
    let asked = if rng.one_in(2) { mass::question } else { questions::with_feed };
    let mut question = asked(rng, &opened, task, &w);
    if part == Part::Flat || rng.one_in(20) {
        // Any distance below 0, also one that is a rounding, makes a liquid unstable.
        question.put(TM_THRESHOLD, -f64::from_bits(1));
    }
    match part {
        Part::WildPair if !before => {
            let t = held(rng, &mut question);
            aim_all(rng, &mut draft, Some(t));
        }
        Part::WildAbsent => {
            let t = held(rng, &mut question);
            (0..n).filter(|i| w[*i] == 0.0).for_each(|i| aim_absent(rng, &mut draft, i, t));
        }
        _ => {}
    }
    let book = spoil(rng, part, &mut draft, &mut question, &w);
    Case::Sheet { book, question: question.question(), room: question.room }
}

/// What is wrong, or beside an edge, in book and question; the book's bytes.
fn spoil(rng: &mut Rng, part: Part, draft: &mut Draft, question: &mut questions::Draft, w: &[f64]) -> Vec<u8> {
    match part {
        Part::NoModel => {
            no_model(rng, draft);
            match rng.below(6) {
                0 => no_mass(rng, draft),
                1 => mass::damage(rng, question),
                2 => {
                    let number = rng.between(1, 9) as u32;
                    return books::damaged(rng, draft, &[number]);
                }
                _ => {}
            }
        }
        Part::Nrtl => {
            draft.blocks[0][MODEL] = NRTL;
            if rng.one_in(4) {
                return books::damaged(rng, draft, &[9]);
            }
        }
        Part::NotFinite => not_finite(rng, draft),
        Part::Masses => match rng.below(3) {
            0 => mass::overflow(rng, draft, w),
            1 => no_mass(rng, draft),
            _ => question.words[BASIS] = neither(rng),
        },
        Part::Edge => {
            if rng.one_in(3) {
                books::at_the_edge(rng, draft);
            }
            questions::at_the_edge(rng, question);
        }
        Part::DamagedQuestion => (0..rng.between(1, 2)).for_each(|_| mass::damage(rng, question)),
        Part::DamagedBook => return books::spoiled(rng, draft),
        _ if rng.one_in(200) => questions::make_patient(question, &draft.bytes()),
        _ => {}
    }
    draft.bytes()
}

/// Mass or mole fractions, that of one solvent near the smallest floats.
fn trace(rng: &mut Rng, n: usize, victim: usize) -> Vec<f64> {
    let mut w = mass::without(rng, n, victim);
    w[victim] = f64::from_bits(rng.bits() >> rng.between(12, 63));
    w
}

/// A Wilson book of version 2 or 3; vapor pressures as solvents have them.
pub fn realistic(rng: &mut Rng, n: usize) -> Draft {
    let mut draft = books::realistic(rng, n);
    enter(rng, &mut draft);
    draft
}

/// Makes a Wilson book of version 2 or 3 of it.
pub fn enter(rng: &mut Rng, draft: &mut Draft) {
    mass::enter(rng, draft);
    draft.blocks[0][1] = rng.pick(&[2, 3]);
    pair(rng, draft);
}

/// Makes a Wilson book of one of version 2 or 3: a_ij = ln(V_j/V_i) mostly, b_ij = −(λ_ij − λ_ii)/R. Words that are not read may hold
/// anything.
pub fn pair(rng: &mut Rng, draft: &mut Draft) {
    draft.blocks[0][MODEL] = WILSON;
    let n = draft.n;
    let ln_volume: Vec<f64> = (0..n).map(|_| rng.range(-0.9, 0.9)).collect();
    for (place, (i, j)) in due_pairs(n).into_iter().enumerate() {
        enter_pair(rng, &mut draft.blocks[1 + n + place], ln_volume[j] - ln_volume[i]);
    }
}

/// Makes a Wilson pair of an NRTL pair; ln(V_j/V_i) is given.
pub(super) fn enter_pair(rng: &mut Rng, words: &mut Words, ln_ratio: f64) {
    let a = if rng.one_in(4) { rng.range(-2.0, 2.0) } else { ln_ratio };
    let terms = [a, -energy(rng), if rng.one_in(4) { rng.range(-2.0, 2.0) } else { -a }, -energy(rng)];
    put_terms(words, &terms);
    let junk = rng.junk();
    UNREAD.for_each(|at| words[at] = if junk { anything(rng) } else { 0 });
}

/// (λ_ij − λ_ii)/R, K.
fn energy(rng: &mut Rng) -> f64 {
    if rng.one_in(4) {
        rng.range(400.0, 1000.0)
    } else {
        rng.range(-150.0, 400.0)
    }
}

fn anything(rng: &mut Rng) -> u64 {
    match rng.below(3) {
        0 => rng.bits(),
        1 => numbers::special(rng).to_bits(),
        _ => numbers::not_finite(rng).to_bits(),
    }
}

/// From `TERMS` on.
pub fn put_terms(words: &mut Words, terms: &[f64]) {
    for (k, v) in terms.iter().enumerate() {
        put(words, TERMS + k, *v);
    }
}

/// The question's temperature; half of the brackets become narrow around it.
fn held(rng: &mut Rng, question: &mut questions::Draft) -> f64 {
    let t = question.get(TEMPERATURE);
    if matches!(question.words[TASK], 4 | 5) && rng.one_in(2) {
        question.put_all(BRACKET, &[t - rng.range(0.0, 0.003), t + rng.range(0.0, 0.003)]);
    }
    t
}

fn aim_all(rng: &mut Rng, draft: &mut Draft, t: Option<f64>) {
    for at in 1 + draft.n..draft.blocks.len() {
        if rng.one_in(2) {
            aim(rng, &mut draft.blocks[at], t);
        }
    }
}

fn aim_pairs_of(rng: &mut Rng, draft: &mut Draft, i: usize, t: Option<f64>) {
    for at in draft.pairs_of(i) {
        if rng.percent(80) {
            aim(rng, &mut draft.blocks[at], t);
        }
    }
}

fn aim_absent(rng: &mut Rng, draft: &mut Draft, i: usize, t: f64) {
    aim_pairs_of(rng, draft, i, Some(t));
    if rng.one_in(4) {
        absent::aim_solvent(rng, &mut draft.blocks[1 + i]);
    }
    put(&mut draft.blocks[1 + i], MOLAR_MASS, mass::any_mass(rng));
}

/// Λ or a derivative at an end of exp or of the floats at t (K), or at some temperature, in one direction or both.
pub fn aim(rng: &mut Rng, words: &mut Words, t: Option<f64>) {
    let t = t.unwrap_or_else(|| rng.range(280.0, 440.0));
    let at = TERMS + 2 * rng.below(2);
    match rng.below(13) {
        0 | 1 => {
            let u = exponent(rng);
            put(words, at, u);
            put(words, at + 1, rng.pick(&[0.0, -0.0]));
        }
        2 => {
            let u = exponent(rng);
            put(words, at, 0.0);
            put(words, at + 1, u * t);
        }
        3..=5 => cancelling(rng, words, at, t),
        6..=8 => large_derivative(rng, words, at, t),
        9 => put(words, at + rng.below(2), numbers::finite(rng)),
        10 => {
            let small = |rng: &mut Rng| rng.sign() * f64::from_bits(rng.bits() >> rng.between(12, 63));
            put(words, at, small(rng));
            put(words, at + 1, small(rng));
        }
        11 => (TERMS..TERMS + 4).for_each(|at| put(words, at, numbers::finite(rng))),
        _ => flatten(rng, words),
    }
    if rng.one_in(4) {
        words[FLAG] = 1;
        put(words, BOUNDS, numbers::finite(rng));
        put(words, BOUNDS + 1, numbers::finite(rng));
    }
}

fn flatten(rng: &mut Rng, words: &mut Words) {
    put_terms(words, &[rng.range(-45.0, -8.0), 0.0, rng.range(-45.0, -8.0), 0.0]);
}

/// Of Λ: mostly near the ends of exp.
fn exponent(rng: &mut Rng) -> f64 {
    match rng.below(6) {
        0 => rng.range(690.0, 709.8),
        1 => rng.range(-745.2, -690.0),
        2 => beside(rng, f64::from_bits(EXP_HIGH)),
        3 => beside(rng, f64::from_bits(EXP_LOW)),
        4 => rng.range(-1000.0, 1000.0),
        _ => rng.range(-60.0, 60.0),
    }
}

/// b up to 1e160 K, and a that takes it away at t.
fn cancelling(rng: &mut Rng, words: &mut Words, at: usize, t: f64) {
    let b = rng.sign() * rng.decade(3.0, 160.0);
    let u = if rng.one_in(2) { exponent(rng) } else { rng.range(-2.0, 2.0) };
    put(words, at, u - b / t);
    put(words, at + 1, b);
}

/// Λ times a power of its exponent's slope b/T² is near the largest float.
fn large_derivative(rng: &mut Rng, words: &mut Words, at: usize, t: f64) {
    let b = rng.sign() * rng.decade(2.0, 155.0);
    let slope = helpers::ln(b.abs() / (t * t));
    let size = if rng.one_in(2) { rng.range(-0.01, 0.001) } else { rng.range(-8.0, 0.1) };
    let u = helpers::ln(f64::MAX) + size - rng.pick(&[1.0, 2.0]) * slope;
    put(words, at, u.min(709.0) - b / t);
    put(words, at + 1, b);
}

/// Version 1 has no Wilson model; no version has any but 0 and 1.
fn no_model(rng: &mut Rng, draft: &mut Draft) {
    let version = rng.pick(&[1, 1, 2, 3]);
    draft.blocks[0][1] = version;
    draft.blocks[0][MODEL] = if version == 1 && rng.percent(70) { WILSON } else { neither(rng) };
}

fn no_mass(rng: &mut Rng, draft: &mut Draft) {
    let i = rng.below(draft.n);
    put(&mut draft.blocks[1 + i], MOLAR_MASS, mass::no_mass(rng));
}

fn not_finite(rng: &mut Rng, draft: &mut Draft) {
    if let Some(at) = draft.any_pair(rng) {
        spoil_pair(rng, &mut draft.blocks[at]);
    }
}

/// A float of a Wilson pair block that 8 is put to, or all those that are not read.
pub(super) fn spoil_pair(rng: &mut Rng, words: &mut Words) {
    match rng.below(5) {
        0 => UNREAD.for_each(|at| put(words, at, numbers::not_finite(rng))),
        1 => {
            words[FLAG] = rng.below(2) as u64;
            put(words, BOUNDS + rng.below(2), numbers::not_finite(rng));
        }
        _ => put(words, TERMS + rng.below(4), numbers::not_finite(rng)),
    }
}

/// A Wilson book, in halves with a word 3 that names no model, a float that is not finite, or pairs read as NRTL's; another damage in
/// a third.
pub fn book(rng: &mut Rng, n: usize) -> Vec<u8> {
    let mut draft = realistic(rng, n);
    aim_all(rng, &mut draft, None);
    match rng.below(6) {
        0 => no_model(rng, &mut draft),
        1 => not_finite(rng, &mut draft),
        2 => draft.blocks[0][MODEL] = NRTL,
        _ => {}
    }
    if rng.one_in(3) {
        let number = rng.between(1, 9) as u32;
        return books::damaged(rng, &draft, &[number]);
    }
    draft.bytes()
}

/// `excess` on a Wilson book, half of them with Λ at the ends.
pub fn excess(rng: &mut Rng, n: usize) -> Case {
    let mut draft = realistic(rng, n);
    let t = if rng.one_in(10) { rng.decade(-300.0, 300.0) } else { rng.range(273.16, 450.0) };
    if rng.one_in(2) {
        aim_all(rng, &mut draft, Some(t));
    }
    let x = if rng.one_in(10) { feeds::any(rng, n) } else { padded(&feeds::feed(rng, n)) };
    Case::Excess { book: draft.bytes(), t, x }
}

/// Blocks of a version 2 Wilson book as `small` has them: one solvent for each molar mass, every pair with the terms a_ij, b_ij (K), a_ji, b_ji (K).
pub fn entered(molar_masses: &[f64], terms: [f64; 4]) -> Vec<Words> {
    let mut all = mass::entered(molar_masses);
    all[0][MODEL] = WILSON;
    for words in &mut all[1 + molar_masses.len()..] {
        put_terms(words, &terms);
        words[UNREAD].fill(0);
    }
    all
}

type Asked = (Vec<Words>, Ask, u32);

/// 2-propanol and water: V 76.92 and 18.07 cm³/mol, 437.98 and 1238.00 cal/mol, as in `published`.
pub const ALCOHOL: [f64; 4] = [-1.4485, -220.42, 1.4485, -623.05];
const MASSES: [f64; 3] = [0.06009502, 0.018015268, 0.04606844];

/// Sheets at the borders of 37, 7, 8 and 25, with their numbers; compared before any others and stored for the replay.
pub fn borders() -> Vec<(Case, u32)> {
    let case = |(book, ask, number): (Vec<Words>, Ask, u32)| {
        let book = bytes(&book);
        let question = ask.bytes_for(&book);
        (Case::Sheet { book, question, room: ANSWER_BYTES }, number)
    };
    [answers(), models(), places(), pairs(), ends()].into_iter().flatten().map(case).collect()
}

fn two() -> Vec<Words> {
    entered(&MASSES[..2], ALCOHOL)
}

fn moles(task: u64) -> Ask {
    mass::ask(task, &[0.3, 0.7]).word(BASIS, BY_MOLES)
}

/// The samples of docs/FORMAT.md; each task by mass and by moles, in versions 2 and 3, and with absent solvents of both signs.
fn answers() -> Vec<Asked> {
    let alone = (entered(&MASSES[..1], [0.0; 4]), Ask::new(1, &[1.0]).at(300.0), 0);
    let ideal = (entered(&MASSES[..2], [0.0; 4]), Ask::new(1, &[0.5, 0.5]).at(300.0), 0);
    let mut first = alone.clone();
    first.0[0][1] = 1;
    first.2 = 37;
    let mut all = vec![alone, ideal, first];
    let mut third = two();
    third[0][1] = 3;
    for task in 1..=9 {
        all.push((two(), moles(task), 0));
        all.push((third.clone(), mass::ask(task, &[0.3, 0.7]), 0));
    }
    for task in [1, 2, 3, 4, 6, 7] {
        for zero in [0.0, -0.0] {
            all.push((entered(&MASSES, ALCOHOL), mass::ask(task, &[0.3, zero, 0.7]), 0));
        }
    }
    all
}

/// Words 3 of block 0 in each version.
fn models() -> Vec<Asked> {
    let mut all = Vec::new();
    for version in 1..=3 {
        for word in [NRTL, WILSON].into_iter().chain(NEITHER) {
            let mut blocks = mass::entered(&MASSES[..2]);
            blocks[0][1] = version;
            blocks[0][MODEL] = word;
            let right = word == NRTL || (word == WILSON && version > 1);
            all.push((blocks, moles(2), if right { 0 } else { 37 }));
        }
    }
    all
}

/// 37 after 38 and both parts of 3, ahead of 4, 5, 35, 6, 7, 8, 11 and 36.
fn places() -> Vec<Asked> {
    let with = |block: usize, at: usize, word: u64| {
        let mut blocks = two();
        blocks[0][MODEL] = 2;
        blocks[block][at] = word;
        blocks
    };
    let mut all = Vec::new();
    for (block, at, word, number) in [
        (0, 0, 2, 3),
        (0, 1, 4, 38),
        (0, 2, 0, 3),
        (0, 2, 9, 3),
        (0, 2, 3, 3),
        (1, 2, 0, 37),
        (2, 5, 0, 37),
        (2, MOLAR_MASS, 0, 37),
        (2, 2, 1000, 37),
        (3, 15, 2, 37),
        (3, 3, u64::MAX, 37),
    ] {
        all.push((with(block, at, word), moles(2), number));
    }
    all.push((with(0, MODEL, 2), moles(2).word(0, 7), 37));
    all.push((with(0, MODEL, 2), moles(2).word(BASIS, 2), 37));
    all
}

/// A pair's words: 7 to 14 are not read, 3 to 6 and flagged bounds are finite, flags are 0 or 1.
fn pairs() -> Vec<Asked> {
    let nan = f64::NAN.to_bits();
    let mut all = Vec::new();
    for at in 3..=18 {
        let mut blocks = two();
        blocks[3][at] = nan;
        let number = match at {
            3..=6 => 8,
            15 | 18 => 7,
            _ => 0,
        };
        all.push((blocks.clone(), moles(2), number));
        if matches!(at, 16 | 17) {
            blocks[3][15] = 1;
            all.push((blocks, moles(2), 8));
        }
    }
    // Where NRTL has alphas: 9 and 24 don't arise.
    for alphas in [[0.3, 0.0, 0.4, 0.0], [-1.0, 0.0, -1.0, 0.0], [f64::INFINITY; 4]] {
        let mut blocks = two();
        for (k, v) in alphas.iter().enumerate() {
            put(&mut blocks[3], 11 + k, *v);
        }
        all.push((blocks, moles(1), 0));
    }
    // The same words of an NRTL book: α = 0.
    let mut nrtl = two();
    nrtl[0][MODEL] = NRTL;
    all.push((nrtl, moles(1), 24));
    all
}

/// Λ at the ends of exp and b to 1e160 K, with both solvents there and with one absent, task 1.
fn ends() -> Vec<Asked> {
    let [high, low] = [EXP_HIGH, EXP_LOW].map(f64::from_bits);
    let [above, below] = [EXP_HIGH + 1, EXP_LOW + 1].map(f64::from_bits);
    let mut all = Vec::new();
    let mut ask = |terms: [f64; 4], x: &[f64], number: u32| {
        all.push((entered(&MASSES[..2], terms), Ask::new(1, x).at(350.0), number));
    };
    let (both, first, second) = ([0.5, 0.5], [1.0, 0.0], [0.0, 1.0]);
    for x in [both, first, second] {
        // Λ_01 infinite: in S_0 even where x_1 is 0.
        ask([above, 0.0, 0.0, 0.0], &x, 25);
        ask([high, 0.0, 0.0, 0.0], &x, 0);
    }
    // Λ_01 = 0: S_0 vanishes where solvent 0 is absent.
    ask([below, 0.0, 0.0, 0.0], &both, 0);
    ask([below, 0.0, 0.0, 0.0], &first, 0);
    ask([below, 0.0, 0.0, 0.0], &second, 25);
    ask([low, 0.0, 0.0, 0.0], &second, 0);
    for x in [both, first, second] {
        // Λ_01 = 1 with a second derivative that overflows.
        ask([-1e160 / 350.0, 1e160, 0.0, 0.0], &x, 25);
    }
    ask([-1e150 / 350.0, 1e150, 0.0, 0.0], &first, 0);
    all
}
