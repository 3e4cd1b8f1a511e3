//! Sheets with absent solvents, whose data and K are at the ends of the floats: where a zero times them, or their sum with
//! others, would be a NaN or an infinity, if an absent solvent entered where it must not.

use super::books::{self, put, put_alphas, BOUNDS, COUNT, EXPONENTS, FLAG, HIGH, LOW, N, REDUCING, TAU};
use super::feeds::{self, Absent};
use super::questions::{self, Draft};
use super::{mass, numbers, wilson, Rng};
use crate::helpers;
use crate::named::solvers::{activity_dew_pressure, ActivityOptions};
use crate::sheet::blocks::Words;
use crate::sheet::book::{DENSITY, MOLAR_MASS, VAPOR_PRESSURE};
use crate::sheet::open_book;
use crate::sheet::question::{BRACKET, FRACTIONS, K_VALUES, TEMPERATURE};
use crate::types::Temperature;

/// Ends of the model's range, K.
const COLDEST: f64 = 273.16;
const HOTTEST: f64 = 450.0;

/// A question with absent solvents, answerable with the ordinary data of its book.
pub struct Base {
    book: books::Draft,
    question: Draft,
    absent: Vec<usize>,
    /// Task 5, built for a slope over all solvents.
    overflows: bool,
    wilson: bool,
}

impl Base {
    /// On an NRTL book.
    pub fn draw(rng: &mut Rng, task: u64) -> Self {
        Self::of(rng, task, false)
    }

    /// On a Wilson book.
    pub fn of_wilson(rng: &mut Rng, task: u64) -> Self {
        Self::of(rng, task, true)
    }

    fn of(rng: &mut Rng, task: u64, wilson: bool) -> Self {
        let n = rng.pick(&[2, 3, 3, 3, 4, 4, 4, 5, 5, 6, 7, 8]);
        let feed = feed(rng, n);
        let absent: Vec<usize> = (0..n).filter(|i| feed[*i] == 0.0).collect();
        let mut book = book(rng, n);
        // Half of version 3, and half by mass.
        let first = if wilson { 2 } else { 1 };
        let (version, by_mass) = rng.pick(&[(first, false), (2, true), (3, false), (3, true)]);
        if version > 1 {
            enter(rng, &mut book, &feed);
            book.blocks[0][1] = version;
        }
        if wilson {
            wilson::pair(rng, &mut book);
        }
        let opened = open_book(&book.bytes()).expect("questions 1 to 9 and 35 pass");
        let question = if by_mass { mass::question } else { questions::with_feed };
        let mut question = question(rng, &opened, task, &feed);
        // Tasks 8 and 9 may have drawn another feed.
        question.put_all(FRACTIONS, &feed);
        let overflows = task == 5 && rng.one_in(5);
        if overflows || matches!(task, 4 | 5) && rng.one_in(2) {
            // So narrow that a slope near the largest float stays finite in it.
            let t = f64::from_bits(question.words[TEMPERATURE]);
            let widest = if overflows { 0.001 } else { 0.003 };
            question.put_all(BRACKET, &[t - rng.range(0.0, widest), t + rng.range(0.0, widest)]);
        }
        for i in &absent {
            let extremes = [f64::from_bits(1), f64::MAX, 1.0, f64::MIN_POSITIVE, numbers::positive(rng)];
            question.put(K_VALUES + i, rng.pick(&extremes));
        }
        Self { book, question, absent, overflows, wilson }
    }

    pub fn question(&self) -> Vec<u8> {
        self.question.question()
    }

    /// The book with other data for most absent solvents.
    pub fn aimed(&self, rng: &mut Rng) -> Vec<u8> {
        if self.overflows {
            let book = if self.wilson { self.overflowing_wilson(rng) } else { self.overflowing(rng) };
            return book.unwrap_or_else(|| self.book.clone()).bytes();
        }
        let t = self.temperature();
        let mut book = self.book.clone();
        for i in &self.absent {
            if rng.percent(90) {
                let words = &mut book.blocks[1 + i];
                aim_solvent(rng, words);
                // Not read in a version 1 book.
                put(words, MOLAR_MASS, mass::any_mass(rng));
            }
            for at in book.pairs_of(*i) {
                match self.wilson {
                    true if rng.percent(80) => wilson::aim(rng, &mut book.blocks[at], Some(t)),
                    true => {}
                    false => aim_pair(rng, &mut book.blocks[at], t),
                }
            }
        }
        book.bytes()
    }

    /// A temperature of the question, K.
    fn temperature(&self) -> f64 {
        f64::from_bits(self.question.words[TEMPERATURE])
    }

    /// Near t the derivatives of ln γ and of ln p of an absent solvent, each finite, sum to −infinity. `None` where there is no
    /// dew point at t.
    fn overflowing(&self, rng: &mut Rng) -> Option<books::Draft> {
        let (t, i) = (self.temperature(), rng.pick(&self.absent));
        let mut book = self.book.clone();
        cancelling(&mut book.blocks[1 + i], rng.decade(20.0, 100.0), f64::MAX, 1);
        // τ_ij = −t3 T and α τ_ij = −b at t for every j: the derivative of ln γ_i is in proportion to t3.
        let b = t * rng.range(0.998, 1.0) - 1.0;
        let mut put_tau = |tau: f64| {
            for at in book.pairs_of(i) {
                let words = &mut book.blocks[at];
                let first = words[1] == i as u64;
                (TAU..TAU + 8).for_each(|at| put(words, at, 0.0));
                put(words, if first { TAU + 3 } else { TAU + 7 }, tau / t);
                put_alphas(words, b / -tau, 0.0);
            }
            self.slope(&book, t, i)
        };
        let tried = -(f64::MAX / 16.0 / helpers::exp(b));
        let size = f64::MAX / put_tau(tried)?.abs();
        put_tau(tried * size * rng.range(0.9972, 0.9999));
        Some(book)
    }

    /// The same with Wilson's ln γ_i = 1 − ln S_i − Σ_k x_k Λ_ki / S_k.
    fn overflowing_wilson(&self, rng: &mut Rng) -> Option<books::Draft> {
        let (t, i) = (self.temperature(), rng.pick(&self.absent));
        let mut book = self.book.clone();
        cancelling(&mut book.blocks[1 + i], rng.decade(20.0, 100.0), f64::MAX, 1);
        // Λ_ki = exp(u) at t for every k, and about as large are its derivatives: b = −T².
        let b = -t * t;
        let mut put_exponent = |u: f64| {
            for at in book.pairs_of(i) {
                let words = &mut book.blocks[at];
                let terms = [0.0, 0.0, u - b / t, b];
                let first = words[1] == i as u64;
                wilson::put_terms(words, &if first { terms } else { [terms[2], terms[3], 0.0, 0.0] });
            }
            self.slope(&book, t, i)
        };
        let tried = helpers::ln(f64::MAX / 16.0);
        let size = f64::MAX / put_exponent(tried)?.abs();
        put_exponent(tried + helpers::ln(size * rng.range(0.9972, 0.9999)));
        Some(book)
    }

    /// ∂ ln γ_i/∂T at the incipient liquid at t.
    fn slope(&self, book: &books::Draft, t: f64, i: usize) -> Option<f64> {
        let feed: Vec<f64> = (0..self.book.n).map(|k| f64::from_bits(self.question.words[FRACTIONS + k])).collect();
        let kelvin = Temperature::new(t).ok()?;
        let ordinary = open_book(&self.book.bytes()).ok()?.model().with_fractions(&feed).ok()?;
        let liquid = activity_dew_pressure(&ordinary, kelvin, ActivityOptions::default()).ok()?.liquid;
        let excess = open_book(&book.bytes()).ok()?.model().nrtl().excess_at(kelvin, &liquid).ok()?;
        Some(excess.d_ln_activity_coefficients_dt[i])
    }
}

/// Realistic, now and then with a wild solvent.
fn book(rng: &mut Rng, n: usize) -> books::Draft {
    let plain = books::realistic(rng, n);
    let mut wild = plain.clone();
    if rng.one_in(10) {
        let i = rng.below(n);
        books::make_wild(rng, &mut wild, i);
    }
    if open_book(&wild.bytes()).is_ok() {
        wild
    } else {
        plain
    }
}

/// Molar masses, now and then of any size; a trace may have moles that underflow.
fn enter(rng: &mut Rng, book: &mut books::Draft, feed: &[f64]) {
    mass::enter(rng, book);
    for (words, w) in book.blocks[1..].iter_mut().zip(feed) {
        if rng.one_in(10) {
            put(words, MOLAR_MASS, mass::any_mass(rng));
        } else if *w < 1e-290 && rng.one_in(2) {
            put(words, MOLAR_MASS, rng.pick(&[2.0, 1e30, f64::MAX]));
        }
    }
}

/// At least one absent, as +0 or −0, and one kept; now and then a kept one near the smallest floats.
fn feed(rng: &mut Rng, n: usize) -> Vec<f64> {
    loop {
        let absent = if rng.one_in(6) { Absent::AllButOne } else { Absent::Some };
        let mut x = feeds::feed_with(rng, n, absent);
        let kept: Vec<usize> = (0..n).filter(|i| x[*i] > 0.0).collect();
        if kept.len() == n {
            continue;
        }
        if kept.len() > 1 && rng.one_in(10) {
            x[kept[0]] = 0.0;
            x = helpers::shares(x);
            x[kept[0]] = rng.decade(-323.0, -290.0);
        }
        return x;
    }
}

pub(super) fn aim_solvent(rng: &mut Rng, words: &mut Words) {
    match rng.below(8) {
        // Pressures at both ends of the floats.
        0 => put(words, VAPOR_PRESSURE + REDUCING, rng.decade(-322.0, -310.0)),
        1 => put(words, VAPOR_PRESSURE + REDUCING, rng.decade(300.0, 308.2)),
        2..=4 => steep(rng, words),
        5 => {
            let term = rng.below(8);
            put(words, VAPOR_PRESSURE + N + term, rng.pick(&[0.0, -0.0]));
            put(words, VAPOR_PRESSURE + EXPONENTS + term, numbers::finite(rng));
        }
        6 => put(words, VAPOR_PRESSURE + EXPONENTS + rng.below(8), rng.range(-300.0, 300.0)),
        _ => {}
    }
    if rng.one_in(2) {
        // Of the density only its range is used.
        put(words, DENSITY, f64::MAX);
        put(words, DENSITY + REDUCING, rng.pick(&[f64::from_bits(1), f64::MAX]));
        put(words, DENSITY + LOW, rng.pick(&[f64::from_bits(1), COLDEST]));
        put(words, DENSITY + HIGH, rng.pick(&[HOTTEST, 1e308]));
        (0..8).for_each(|term| put(words, DENSITY + N + term, rng.sign() * f64::MAX));
    }
}

/// d ln p/dT near the largest float or beyond.
fn steep(rng: &mut Rng, words: &mut Words) {
    let sign = rng.sign();
    let large = if rng.one_in(2) { f64::MAX } else { rng.decade(290.0, 308.2) };
    cancelling(words, rng.decade(20.0, 100.0), sign * large, rng.between(1, 4));
    put(words, VAPOR_PRESSURE + HIGH, rng.pick(&[HOTTEST, 1e10]));
}

/// θ rounds to 1 and the terms cancel in pairs: d ln p/dT = −n/T for each pair.
fn cancelling(words: &mut Words, t_r: f64, n: f64, pairs: usize) {
    let at = VAPOR_PRESSURE;
    put(words, at, t_r);
    put(words, at + LOW, COLDEST);
    put(words, at + HIGH, HOTTEST);
    words[at + COUNT] = 2 * pairs as u64;
    for pair in 0..4 {
        put(words, at + N + 2 * pair, n);
        put(words, at + EXPONENTS + 2 * pair, 1.0);
        put(words, at + N + 2 * pair + 1, -n);
        put(words, at + EXPONENTS + 2 * pair + 1, 0.0);
    }
}

/// t is a temperature of the question, K.
fn aim_pair(rng: &mut Rng, words: &mut Words, t: f64) {
    match rng.below(10) {
        0..=4 => large_slopes(rng, words, t),
        5 => {
            // G underflows in one direction.
            let tau = rng.decade(3.5, 300.0);
            put(words, TAU + 4 * rng.below(2), tau);
        }
        6 => {
            // τ near the largest float with G near 1.
            let tau = rng.sign() * rng.decade(300.0, 308.2);
            (TAU..TAU + 8).for_each(|at| put(words, at, 0.0));
            put(words, TAU + 4 * rng.below(2), tau);
            put_alphas(words, 1e-310, 0.0);
        }
        7 => {
            (TAU..TAU + 8).for_each(|at| put(words, at, rng.pick(&[0.0, -0.0])));
            put_alphas(words, numbers::positive(rng), rng.pick(&[0.0, -0.0]));
        }
        8 => put_alphas(words, rng.decade(-320.0, -1.0), 0.0),
        _ => {}
    }
    if rng.one_in(2) {
        words[FLAG] = 1;
        put(words, BOUNDS, numbers::finite(rng));
        put(words, BOUNDS + 1, numbers::finite(rng));
    }
}

/// G τ or a derivative of it is near the largest float at t or at an end of the range, with α τ = −b and G = exp(b).
fn large_slopes(rng: &mut Rng, words: &mut Words, t: f64) {
    let (t, hot) = rng.pick(&[(t, true), (t, false), (HOTTEST, true), (COLDEST, false)]);
    // Where b + 1 = t all three are equally large: the sum with a pressure's slope may overflow.
    let b = if rng.one_in(2) { t * rng.range(0.992, 1.001) - 1.0 } else { rng.range(1.0, 690.0) };
    let growth = ((b + 1.0) / t).max((b + 1.0) * (b + 1.0) / (t * t)).max(1.0);
    let size = if rng.one_in(2) { rng.range(0.992, 1.001) } else { rng.decade(-3.0, 0.05) };
    let tau = -size * (f64::MAX / helpers::exp(b) / growth);
    (TAU..TAU + 8).for_each(|at| put(words, at, 0.0));
    // τ = t3 T is largest where it is hot, τ = t1/T where it is cold.
    let at = TAU + 4 * rng.below(2);
    if hot {
        put(words, at + 3, tau / t);
    } else {
        put(words, at + 1, tau * t);
    }
    put_alphas(words, b / -tau, 0.0);
}
