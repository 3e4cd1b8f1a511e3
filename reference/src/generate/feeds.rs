//! Mole fractions: feeds that sum to one, and arrays that do not.

use super::{beside, numbers, Rng};
use crate::helpers;

/// How many solvents a feed leaves absent.
#[derive(Debug, Clone, Copy, PartialEq, Eq)]
pub enum Absent {
    None,
    Some,
    AllButOne,
}

/// Sums to one; absent solvents are +0 or −0.
pub fn feed(rng: &mut Rng, n: usize) -> Vec<f64> {
    let absent = match rng.below(10) {
        0..=5 => Absent::None,
        6..=8 => Absent::Some,
        _ => Absent::AllButOne,
    };
    feed_with(rng, n, absent)
}

pub fn feed_with(rng: &mut Rng, n: usize, absent: Absent) -> Vec<f64> {
    let kept = rng.below(n);
    let gone = |rng: &mut Rng, i: usize| match absent {
        Absent::None => false,
        Absent::Some => i != kept && rng.percent(40),
        Absent::AllButOne => i != kept,
    };
    let amounts = (0..n).map(|i| if gone(rng, i) { 0.0 } else { amount(rng) }).collect();
    let x = if rng.one_in(8) { near(rng, amounts, kept) } else { helpers::shares(amounts) };
    with_zeros(rng, x)
}

/// Exponential, so that every composition is equally likely.
fn amount(rng: &mut Rng) -> f64 {
    -helpers::ln(rng.unit() + 1e-17)
}

/// All but a trace of one solvent.
fn near(rng: &mut Rng, amounts: Vec<f64>, main: usize) -> Vec<f64> {
    let trace = rng.decade(-16.0, -3.0);
    let mut x = helpers::shares(amounts);
    x.iter_mut().for_each(|v| *v *= trace);
    x[main] = 0.0;
    x[main] = 1.0 - helpers::sum(&x);
    x
}

fn with_zeros(rng: &mut Rng, mut x: Vec<f64>) -> Vec<f64> {
    for v in x.iter_mut().filter(|v| **v == 0.0) {
        *v = rng.pick(&[0.0, -0.0]);
    }
    x
}

/// Eight entries for the tests of a composition: right, beside the tolerance, negative, not finite, overflowing.
pub fn any(rng: &mut Rng, n: usize) -> [f64; 8] {
    let mut x: [f64; 8] = std::array::from_fn(|_| numbers::any_bits(rng));
    x[..n].copy_from_slice(&feed(rng, n));
    let i = rng.below(n);
    match rng.below(9) {
        0 => x[i] = beside(rng, x[i]),
        1 => x[i] += rng.sign() * beside(rng, 1e-10),
        2 => x[i] = -rng.decade(-320.0, 1.0),
        3 => x[i] = numbers::not_finite(rng),
        4 => x[i] = numbers::any_bits(rng),
        5 => x[..n].fill(f64::MAX),
        _ => {}
    }
    x
}

/// Eight entries for `normalize`.
pub fn amounts(rng: &mut Rng, n: usize) -> [f64; 8] {
    let kind = rng.below(6);
    let mut x: [f64; 8] = std::array::from_fn(|_| numbers::any_bits(rng));
    for v in &mut x[..n] {
        *v = match kind {
            0 => numbers::any_bits(rng),
            1 => numbers::special(rng),
            2 => f64::from_bits(rng.bits() >> 12),
            3 => rng.pick(&[0.0, -0.0]),
            4 => rng.decade(-300.0, 300.0),
            _ => rng.unit(),
        };
    }
    x
}
