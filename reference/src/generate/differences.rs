//! The inputs that docs/DIFFERENCES.md names, with what it says of each. They are compared before any others and stored for
//! the replay.

use super::mass;
use super::small::{blocks, book, bytes, constant, put, Ask};
use super::wilson::entered;
use crate::helpers::WRITTEN_NAN;
use crate::sheet::blocks::{words_of, Words};
use crate::sheet::ANSWER_BYTES;
use crate::stage::Case;

/// A book and a question; its number, where 0 is an answer; and words of block k of the answer, as (k, word, value).
pub struct Difference {
    pub book: Vec<u8>,
    pub ask: Ask,
    pub number: u32,
    pub stated: Vec<(usize, usize, u64)>,
}

impl Difference {
    fn new(book: Vec<u8>, ask: Ask) -> Self {
        Self { book, ask, number: 0, stated: Vec::new() }
    }

    fn refused(mut self, number: u32) -> Self {
        self.number = number;
        self
    }

    fn word(self, at: usize, word: u64) -> Self {
        self.of_block(0, at, word)
    }

    fn float(self, at: usize, v: f64) -> Self {
        self.word(at, v.to_bits())
    }

    fn of_block(mut self, block: usize, at: usize, word: u64) -> Self {
        self.stated.push((block, at, word));
        self
    }

    pub fn case(&self) -> Case {
        Case::Sheet { book: self.book.clone(), question: self.ask.bytes(), room: ANSWER_BYTES }
    }

    /// Whether an answer has every word that the page states.
    pub fn holds(&self, answer: &[u8]) -> bool {
        let all: Vec<Words> = answer.chunks_exact(512).map(words_of).collect();
        self.stated.iter().all(|(block, at, word)| all[*block][*at] == *word)
    }
}

/// In the order of the page.
pub fn all() -> Vec<Difference> {
    [books(), masses(), nrtl(), rachford_rice(), michelsen(), solvers(), vanishing(), wilson()]
        .into_iter()
        .flatten()
        .collect()
}

pub fn cases() -> Vec<Case> {
    all().iter().map(Difference::case).collect()
}

fn two() -> Vec<u8> {
    book(&[4e6, 1e6], [0.0, 0.0])
}

/// At 350 K: correlation ranges of one temperature, and regression intervals with low ≥ high.
fn books() -> Vec<Difference> {
    let halves = |task| Ask::new(task, &[0.5, 0.5]);
    let mut ranges = blocks(&[4e6, 1e6], [0.0, 0.0]);
    for at in [5, 26] {
        put(&mut ranges[1], at, &[350.0, 350.0]);
    }
    let interval = |low: f64, high: f64, validity: u64| {
        let mut all = blocks(&[4e6, 1e6], [0.0, 0.0]);
        all[3][15] = 1;
        put(&mut all[3], 16, &[low, high]);
        Difference::new(bytes(&all), halves(1)).word(35, validity)
    };
    vec![
        Difference::new(bytes(&ranges), halves(2)).float(4, 350.0),
        interval(350.0, 350.0, 1),
        interval(340.0, 340.0, 2),
        interval(360.0, 340.0, 2),
    ]
}

/// Moles that overflow, and a trace whose mole fraction is 0.
fn masses() -> Vec<Difference> {
    let smallest = f64::from_bits(1);
    vec![
        Difference::new(bytes(&mass::entered(&[smallest])), mass::ask(2, &[1.0])).refused(34),
        Difference::new(bytes(&mass::entered(&[0.018, 2.0, 0.046])), mass::ask(2, &[0.3, smallest, 0.7])).word(15, 0),
    ]
}

/// ln γ of solvent 0 at infinite dilution, which the formula gives as τ_10 + τ_01 G_01.
fn nrtl() -> Vec<Difference> {
    let dilute = |tau_10: f64, alpha: f64| {
        let mut all = blocks(&[4e6, 1e6], [0.0, tau_10]);
        put(&mut all[3], 11, &[alpha, 0.0, alpha, 0.0]);
        Difference::new(bytes(&all), Ask::new(1, &[0.0, 1.0]))
    };
    vec![
        dilute(-3000.0, 0.3).refused(25),
        dilute(0.6, 1300.0).refused(25),
        dilute(0.6, 1241.5).float(14, 1.0),
        dilute(0.6, 1170.0).float(14, 0.6),
        dilute(0.6, 0.0).refused(24),
    ]
}

fn rachford_rice() -> Vec<Difference> {
    let split = |task, z: [f64; 2], k: [f64; 2]| Difference::new(two(), Ask::new(task, &z).k(&k));
    let at = |found: Difference, iterations, beta, residual: f64| {
        found.word(3, 3).word(8, iterations).float(9, residual).float(11, beta)
    };
    let feed = [0.1, 0.9];
    let heavy = [0.9, 0.09999999999999998];
    vec![
        at(split(8, feed, [7.0, 0.6]), 2, -0.16666666666666638, 337769972052786.94)
            .float(14, 0.999999999999985)
            .float(15, 1.498801083243939e-14),
        at(split(8, heavy, [3.2, 0.12]), 2, 1.136363636363636, 264211178139068.47),
        at(split(9, feed, [2.5, 0.75]), 2, -0.6666666666666664, 337769972052787.06),
        at(split(9, feed, [2.2, 0.6]), 2, -0.8333333333333328, 270215977642229.53),
        at(split(9, feed, [1.3, 0.84]), 2, -3.333333333333332, 135107988821114.81),
        at(
            split(8, [0.69, 0.31000000000000005], [3.6, 0.3835051546391752]),
            20,
            1.0000000000000009,
            1.2212453270876722e-15,
        ),
        at(split(9, [1.0, 1e-30], [0.5, 2.0]), 51, -0.9999999999999993, 0.3333333333333319),
        split(9, [1.0, 1e-320], [0.9999999999999998, 1.0000000000000002])
            .word(9, WRITTEN_NAN)
            .float(11, -4503599627370496.0)
            .word(14, 0)
            .word(15, WRITTEN_NAN),
        split(9, [1.0 + 9e-11, 1e-15], [f64::MAX, 0.5]).refused(25),
        split(8, [1.0 + 9e-11, 1e-15], [f64::MAX, 0.5]).word(3, 2),
    ]
}

/// Trials of the liquid (0.5, 0.5).
fn michelsen() -> Vec<Difference> {
    let trials = |tau, threshold: f64, stable| {
        let ask = Ask::new(6, &[0.5, 0.5]).float(16, threshold);
        Difference::new(book(&[4e6, 1e6], tau), ask).word(37, stable).word(12, 2)
    };
    let trial = |found: Difference, distance: f64, iterations, trivial| {
        found.of_block(1, 2, distance.to_bits()).of_block(1, 3, iterations).of_block(1, 4, trivial)
    };
    vec![
        trial(trials([3.0, 3.0], -1e-8, 0), -0.17769972194407044, 1, 0),
        trial(trials([3.0, 3.0], -1.0, 1), -0.21012810137594404, 19, 0),
        trial(trials([0.9, 0.4], -1e-300, 1), -5.551115123125783e-17, 41, 1)
            .of_block(2, 2, (-1.1102230246251565e-16f64).to_bits())
            .of_block(2, 4, 1),
    ]
}

/// A trace that underflows in a flash, and a dew temperature with its shorter sheet.
fn solvers() -> Vec<Difference> {
    let trace = Ask::new(7, &[0.5, 0.5, f64::from_bits(1)]).under(1.8e4);
    let dew = |limit, shorter: bool| {
        let (long, ask) = dew_temperature(limit);
        let found = Difference::new(if shorter { book(&[4e6], [0.0, 0.0]) } else { long }, ask);
        found.float(4, 350.00022942500607).word(8, 3)
    };
    vec![
        Difference::new(book(&[1e6, 8e6, 9e7], [0.0, 0.0]), trace).word(3, 3).word(16, 0).word(24, 0),
        dew(200, false),
        dew(200, true),
        dew(10, false),
        dew(10, true),
    ]
}

/// Dew points whose terms y_i / (γ_i p_i^sat) are infinite, or have a sum that is; the last with an alpha that 24 would refuse.
fn vanishing() -> Vec<Difference> {
    let dew = |all: &[Words]| Difference::new(bytes(all), Ask::new(3, &[0.5, 0.5])).refused(34);
    let small = |pressure| constant(&[pressure, pressure], [0.0, 0.0]);
    let mut bad_alpha = small(1e-315);
    put(&mut bad_alpha[3], 11, &[-1.0, 0.0, -1.0, 0.0]);
    vec![dew(&small(1e-315)), dew(&small(4.5e-309)), dew(&bad_alpha)]
}

/// Wilson books at 350 K, with a_ij, b_ij (K), a_ji, b_ji (K): a pure solvent; an absent one whose Λ has derivatives of any size; ln γ of
/// solvent 0 at infinite dilution, which the formula gives as −a_01; and trials of a liquid that is nearly two.
fn wilson() -> Vec<Difference> {
    let two = |terms, ask| Difference::new(bytes(&entered(&[0.06, 0.018], terms)), ask);
    let absent = |b: f64| two([-b / 350.0, b, 0.0, 0.0], Ask::new(1, &[1.0, 0.0]));
    let dilute = |a_01: f64| two([a_01, 0.0, 0.0, 0.0], Ask::new(1, &[0.0, 1.0]));
    let nearly = |task, threshold: f64| {
        let ask = Ask::new(task, &[0.5, 0.5]).float(16, threshold);
        two([-25.0, 0.0, -25.0, 0.0], ask)
    };
    let ends = |found: Difference, trial, distance: f64| found.of_block(trial, 2, distance.to_bits());
    let least = -f64::from_bits(1);
    vec![
        Difference::new(bytes(&entered(&[0.06], [0.0; 4])), Ask::new(1, &[1.0])).float(30, -0.0).float(31, -0.0),
        absent(1e160).refused(25),
        absent(1e150).float(14, 0.0),
        dilute(-800.0).refused(25),
        dilute(-744.9).float(14, 744.4400719213812),
        dilute(-700.0).float(14, 700.0),
        ends(ends(nearly(6, least).word(37, 0), 1, -2.211772431870429e-16), 2, -2.220446049250313e-16),
        nearly(7, least).refused(29),
        nearly(6, -1e-8).word(37, 1),
        nearly(7, -1e-8).word(3, 1),
    ]
}

/// Task 5 with an absent solvent that would show in a slope over all. At 350 K its ln γ has the slope −0.9985 and its ln p the
/// slope −0.0029 times the largest float: their sum is −infinity, and zero times it a NaN, which drops the Newton step.
pub fn dew_temperature(max_temperature_iterations: u64) -> (Vec<u8>, Ask) {
    let mut all = blocks(&[4e6, 1e5], [0.0, 0.0]);
    // T/t_r rounds to nothing, so that θ = 1: Σ n θ^e = 0 and d ln p/dT = −n/T.
    put(&mut all[2], 3, &[1e20]);
    all[2][7] = 2;
    put(&mut all[2], 8, &[f64::MAX, -f64::MAX]);
    put(&mut all[2], 16, &[1.0, 0.0]);
    // τ_10 = −1.4e154 T, α τ_10 near −T/K.
    put(&mut all[3], 10, &[-1.4e154]);
    put(&mut all[3], 11, &[7.12222e-155, 0.0, 7.12222e-155, 0.0]);
    let ask = Ask::new(5, &[1.0, 0.0]).under(26952.0).float(17, 350.0).float(18, 350.001);
    (bytes(&all), ask.word(14, max_temperature_iterations))
}
