//! Floats for exp, ln, powf and the small functions.

use super::{beside, Rng};
use crate::helpers::{EXP_HIGH, EXP_LOW};

const LN_2: f64 = std::f64::consts::LN_2;

/// Zeros, ones, infinities, NaNs of several kinds, the ends of the subnormals and of the normals.
const SPECIAL: [u64; 26] = [
    0,
    0x8000_0000_0000_0000,
    1,
    0x8000_0000_0000_0001,
    0x000f_ffff_ffff_ffff,
    0x800f_ffff_ffff_ffff,
    0x0010_0000_0000_0000,
    0x8010_0000_0000_0000,
    0x7fef_ffff_ffff_ffff,
    0xffef_ffff_ffff_ffff,
    0x7ff0_0000_0000_0000,
    0xfff0_0000_0000_0000,
    0x7ff8_0000_0000_0000,
    0xfff8_0000_0000_0000,
    0x7ff0_0000_0000_0001,
    0xfff0_0000_0000_0001,
    0x7fff_ffff_ffff_ffff,
    0xffff_ffff_ffff_ffff,
    0x3ff0_0000_0000_0000,
    0xbff0_0000_0000_0000,
    0x3ff6_a09e_667f_3bcd,
    0x3fe6_a09e_667f_3bcd,
    0x3fe0_0000_0000_0000,
    0x4000_0000_0000_0000,
    EXP_HIGH,
    EXP_LOW,
];

/// Every exponent with the ends of its significands, both signs; the special floats and their neighbours; the ends of each k of exp.
pub fn edges() -> Vec<u64> {
    let significands = [
        0,
        1,
        0x0008_0000_0000_0000,
        0x000f_ffff_ffff_ffff,
        0x0006_a09e_667f_3bcd,
        0x0006_a09e_667f_3bcc,
        0x0006_a09e_667f_3bce,
    ];
    let mut all = Vec::new();
    for exponent in 0..2048u64 {
        for significand in significands {
            all.extend([0, 1u64 << 63].map(|sign| sign | exponent << 52 | significand));
        }
    }
    let around = |bits: u64| (-3..=3).map(move |step| bits.wrapping_add_signed(step));
    all.extend(SPECIAL.into_iter().flat_map(around));
    all.extend((-1076..=1025).flat_map(|k| around(((k as f64 + 0.5) * LN_2).to_bits())));
    all
}

pub fn any_bits(rng: &mut Rng) -> f64 {
    f64::from_bits(rng.bits())
}

pub fn special(rng: &mut Rng) -> f64 {
    f64::from_bits(rng.pick(&SPECIAL))
}

/// A float for exp: mostly where the result is neither 0 nor infinite.
pub fn for_exp(rng: &mut Rng) -> f64 {
    match rng.below(8) {
        0 => any_bits(rng),
        1 => special(rng),
        2 => rng.range(-800.0, 800.0),
        3 => rng.range(-1.0, 1.0),
        4 => rng.range(-745.2, -708.0),
        5 => {
            let k = rng.between(0, 2100) as f64 - 1075.0;
            beside(rng, (k + 0.5) * LN_2)
        }
        6 => rng.sign() * rng.decade(-320.0, 3.0),
        _ => rng.range(-30.0, 30.0),
    }
}

/// A float for ln: mostly positive.
pub fn for_ln(rng: &mut Rng) -> f64 {
    match rng.below(8) {
        0 => any_bits(rng),
        1 => special(rng),
        2 => any_bits(rng).abs(),
        3 => f64::from_bits(rng.bits() >> 12),
        4 => beside(rng, 1.0),
        5 => {
            let root = beside(rng, std::f64::consts::SQRT_2).to_bits() & 0x000f_ffff_ffff_ffff;
            f64::from_bits((rng.below(2047) as u64) << 52 | root)
        }
        6 => rng.range(0.5, 2.0),
        _ => rng.decade(-10.0, 8.0),
    }
}

/// Base and exponent: as the vapor pressure has them, and wild.
pub fn for_powf(rng: &mut Rng) -> (f64, f64) {
    match rng.below(5) {
        0 => (for_ln(rng), for_exp(rng)),
        1 => (any_bits(rng), any_bits(rng)),
        2 => (special(rng), special(rng)),
        3 => (rng.unit(), rng.pick(&[-2.0, -1.0, -0.5, 0.0, 0.5, 1.0, 1.5, 2.0, 2.5, 3.0, 4.0, 6.5])),
        _ => (rng.decade(-5.0, 2.0), rng.range(-60.0, 60.0)),
    }
}

/// Finite, of any size.
pub fn finite(rng: &mut Rng) -> f64 {
    let v = match rng.below(6) {
        0 => any_bits(rng),
        1 => special(rng),
        2 => rng.sign() * f64::from_bits(rng.bits() >> 12),
        3 => rng.sign() * rng.decade(290.0, 308.0),
        _ => rng.sign() * rng.decade(-20.0, 20.0),
    };
    if v.is_finite() {
        v
    } else {
        rng.sign() * f64::MAX
    }
}

/// Finite and positive, of any size.
pub fn positive(rng: &mut Rng) -> f64 {
    let v = finite(rng).abs();
    if v > 0.0 {
        v
    } else {
        f64::from_bits(1)
    }
}

/// NaN or an infinity.
pub fn not_finite(rng: &mut Rng) -> f64 {
    f64::from_bits(rng.pick(&SPECIAL[10..18]))
}
