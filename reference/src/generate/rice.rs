//! Feeds and K values for the Rachford-Rice equation.

use super::{beside, feeds, numbers, Rng};
use crate::helpers;

/// z and K of n solvents that pass 15 to 18.
pub fn split(rng: &mut Rng, n: usize) -> (Vec<f64>, Vec<f64>) {
    let mut z = feeds::feed(rng, n);
    match rng.below(12) {
        0 | 1 => traces(rng, &mut z),
        2 if n > 1 && rng.one_in(4) => return overflowing(rng, n),
        2 if n > 1 => return beside_pole(rng, n),
        _ => {}
    }
    (z, k_values(rng, n))
}

/// A trace of the one solvent on its side of K = 1: the root stands a few floats beside a pole.
fn beside_pole(rng: &mut Rng, n: usize) -> (Vec<f64>, Vec<f64>) {
    let lone = rng.below(n);
    let light = rng.one_in(2);
    let spread = rng.pick(&[0.1, 1.0, 1e-8]);
    let above = |rng: &mut Rng| 1.0 + spread * rng.unit() + 1e-15;
    let k = (0..n).map(|i| if (i == lone) == light { above(rng) } else { 1.0 / above(rng) }).collect();
    let mut z = vec![1.0; n];
    z[lone] = 0.0;
    z = helpers::shares(z);
    z[lone] = rng.decade(-19.0, -14.0);
    (z, k)
}

/// A fraction just above one times the largest K: the sum is infinite.
fn overflowing(rng: &mut Rng, n: usize) -> (Vec<f64>, Vec<f64>) {
    let main = rng.below(n);
    let mut z: Vec<f64> = (0..n).map(|_| rng.decade(-17.0, -12.0)).collect();
    let mut k: Vec<f64> = (0..n).map(|_| rng.decade(-3.0, 0.0)).collect();
    z[main] = 1.0 + rng.range(-1e-11, 9e-11);
    k[main] = rng.pick(&[f64::MAX, 1e308]);
    (z, k)
}

/// Some entries become subnormal or nearly so; the sum stays one.
fn traces(rng: &mut Rng, z: &mut [f64]) {
    let main = rng.below(z.len());
    for v in z.iter_mut() {
        *v = match rng.below(4) {
            0 => f64::from_bits(rng.bits() >> 12),
            1 => rng.decade(-323.0, -12.0),
            2 => 0.0,
            _ => *v,
        };
    }
    z[main] = 0.0;
    z[main] = (1.0 - helpers::sum(z)).max(0.0);
}

pub fn k_values(rng: &mut Rng, n: usize) -> Vec<f64> {
    let kind = rng.below(12);
    let common = rng.decade(-2.0, 2.0);
    (0..n).map(|_| k_value(rng, kind, common)).collect()
}

fn k_value(rng: &mut Rng, kind: usize, common: f64) -> f64 {
    match kind {
        // As a flash has them.
        0..=5 => rng.decade(-1.5, 1.5),
        6 => 1.0 + rng.sign() * rng.decade(-16.0, -3.0),
        7 => beside(rng, 1.0),
        8 => rng.decade(-300.0, 300.0),
        9 => rng.pick(&[0.5, 1.0, 2.0]),
        10 => common,
        _ => numbers::positive(rng),
    }
}

/// z, K and a limit for a direct call; now and then refused by 15 to 18.
pub fn any(rng: &mut Rng, n: usize) -> ([f64; 8], [f64; 8], u64) {
    let mut z: [f64; 8] = std::array::from_fn(|_| numbers::any_bits(rng));
    let mut k: [f64; 8] = std::array::from_fn(|_| numbers::any_bits(rng));
    let (feed, values) = split(rng, n);
    z[..n].copy_from_slice(&feed);
    k[..n].copy_from_slice(&values);
    let i = rng.below(n);
    match rng.below(16) {
        0 => z[..n].copy_from_slice(&feeds::any(rng, n)[..n]),
        1 => k[i] = rng.pick(&[0.0, -0.0, -1.0, f64::NAN, f64::INFINITY, -f64::INFINITY]),
        2 => k[i] = numbers::any_bits(rng),
        _ => {}
    }
    (z, k, limit(rng))
}

pub fn limit(rng: &mut Rng) -> u64 {
    rng.pick(&[0, 1, 2, 3, 5, 20, 200, 200, 200, 200, 1000, 1_000_000])
}
