//! Helper numbers of docs/FORMAT.md: ln, exp, powf, sums from +0, `normalize`; max and min are Rust's own.
//!
//! ln and exp follow fdlibm's `e_log.c` and `e_exp.c` in the order of operations of docs/FORMAT.md; constants are given by their bits.

use std::borrow::Borrow;

use crate::types::CalculationError;

/// The one NaN that is ever written.
pub const WRITTEN_NAN: u64 = 0x7ff8_0000_0000_0000;

const A: u64 = 0x3fe6_2e42_fee0_0000;
const B: u64 = 0x3dea_39ef_3579_3c76;
const C: u64 = 0x3ff7_1547_652b_82fe;
const P: [u64; 5] =
    [0x3fc5_5555_5555_553e, 0xbf66_c16c_16be_bd93, 0x3f11_566a_af25_de2c, 0xbebb_bd41_c5d2_6bf1, 0x3e66_3769_72be_a4d0];
const LG: [u64; 7] = [
    0x3fe5_5555_5555_5593,
    0x3fd9_9999_9997_fa04,
    0x3fd2_4924_9422_9359,
    0x3fcc_71c5_1d8e_78af,
    0x3fc7_4664_96cb_03de,
    0x3fc3_9a09_d078_c69f,
    0x3fc2_f112_df3e_5244,
];
/// Above it ln halves the significand; the decimals of docs/FORMAT.md.
#[allow(clippy::approx_constant)]
const HALVED_ABOVE: f64 = 1.4142135623730951;
/// Above it exp is +infinity, below the other it is zero.
pub const EXP_HIGH: u64 = 0x4086_2e42_fefa_39ef;
pub const EXP_LOW: u64 = 0xc087_4910_d52d_3051;

/// c0 + z × (c1 + z × (c2 + …)).
fn horner(bits: &[u64], z: f64) -> f64 {
    let (last, rest) = bits.split_last().expect("no polynomial is empty");
    rest.iter().rev().fold(f64::from_bits(*last), |sum, c| f64::from_bits(*c) + z * sum)
}

/// v = 2^k × m with 1 ≤ m < 2, for finite v > 0.
fn split(v: f64) -> (i64, f64) {
    // 2^54 × a subnormal is normal and exact.
    let (v, shift) = if v < f64::MIN_POSITIVE { (v * 18_014_398_509_481_984.0, 54) } else { (v, 0) };
    let bits = v.to_bits();
    let k = (bits >> 52) as i64 - 1023 - shift;
    (k, f64::from_bits((bits & 0x000f_ffff_ffff_ffff) | 0x3ff0_0000_0000_0000))
}

/// 2^k for normal results.
fn power_of_two(k: i64) -> f64 {
    f64::from_bits(((k + 1023) as u64) << 52)
}

/// k as a float, exactly, for |k| < 2^51: 1.5 × 2^52 + k, less 1.5 × 2^52. The processor's own conversion would make each call wait for
/// the one before, and the reference is also the baseline of the times.
fn float_of_integer(k: i64) -> f64 {
    const BASE: u64 = 0x4338_0000_0000_0000;
    f64::from_bits(BASE.wrapping_add_signed(k)) - f64::from_bits(BASE)
}

pub fn ln(v: f64) -> f64 {
    if v.is_nan() || v < 0.0 {
        return f64::NAN;
    }
    if v == 0.0 {
        return f64::NEG_INFINITY;
    }
    if v == f64::INFINITY {
        return v;
    }
    let (mut k, mut m) = split(v);
    if m > HALVED_ABOVE {
        m /= 2.0;
        k += 1;
    }
    let k = float_of_integer(k);
    let f = m - 1.0;
    let s = f / (2.0 + f);
    let z = s * s;
    let h = 0.5 * f * f;
    let l = z * horner(&LG, z);
    k * f64::from_bits(A) - ((h - (s * (h + l) + k * f64::from_bits(B))) - f)
}

pub fn exp(v: f64) -> f64 {
    if v.is_nan() {
        return v;
    }
    if v > f64::from_bits(EXP_HIGH) {
        return f64::INFINITY;
    }
    if v < f64::from_bits(EXP_LOW) {
        return 0.0;
    }
    let scaled = f64::from_bits(C) * v;
    let half = if v < 0.0 { -0.5 } else { 0.5 };
    // The cast cuts toward zero.
    let k = (scaled + half) as i64;
    let whole = float_of_integer(k);
    let hi = v - whole * f64::from_bits(A);
    let lo = whole * f64::from_bits(B);
    let r = hi - lo;
    let t = r * r;
    let c = r - t * horner(&P, t);
    let y = 1.0 + (r * c / (2.0 - c) - lo + hi);
    let a = k / 2;
    y * power_of_two(a) * power_of_two(k - a)
}

/// b > 0 in every use; for other b the same formula holds.
pub fn powf(b: f64, e: f64) -> f64 {
    exp(e * ln(b))
}

pub fn sum(values: &[f64]) -> f64 {
    values.iter().sum_from_zero()
}

/// Divides each entry by the sum, whatever that is.
pub fn shares(values: Vec<f64>) -> Vec<f64> {
    let total = sum(&values);
    values.into_iter().map(|v| v / total).collect()
}

/// The shares of a sum that is finite and positive, else 34.
pub fn normalize(values: Vec<f64>) -> Result<Vec<f64>, CalculationError> {
    let total = sum(&values);
    if total.is_finite() && total > 0.0 {
        Ok(shares(values))
    } else {
        Err(CalculationError::SumNotNormalizable)
    }
}

/// Passes over a NaN; which zero comes from +0 and −0 is open.
pub fn max(a: f64, b: f64) -> f64 {
    a.max(b)
}

/// Passes over a NaN; which zero comes from +0 and −0 is open.
pub fn min(a: f64, b: f64) -> f64 {
    a.min(b)
}

/// The bits as they are written: one NaN.
pub fn bits_of(v: f64) -> u64 {
    if v.is_nan() {
        WRITTEN_NAN
    } else {
        v.to_bits()
    }
}

/// Indices of the positive fractions.
pub fn positive(fractions: &[f64]) -> impl Iterator<Item = usize> + '_ {
    (0..fractions.len()).filter(|i| fractions[*i] > 0.0)
}

/// Names that the assembled Rust calls in place of `ln`, `exp` and `powf`.
pub trait HelperNumbers {
    fn helper_ln(self) -> f64;
    fn helper_exp(self) -> f64;
    fn helper_powf(self, e: f64) -> f64;
}

impl HelperNumbers for f64 {
    fn helper_ln(self) -> f64 {
        ln(self)
    }
    fn helper_exp(self) -> f64 {
        exp(self)
    }
    fn helper_powf(self, e: f64) -> f64 {
        powf(self, e)
    }
}

/// The name that the assembled Rust calls in place of `sum`: from +0, in index order.
pub trait SumFromZero {
    fn sum_from_zero(self) -> f64;
}

impl<I> SumFromZero for I
where
    I: Iterator,
    I::Item: Borrow<f64>,
{
    fn sum_from_zero(self) -> f64 {
        self.fold(0.0, |sum, v| sum + *v.borrow())
    }
}

#[cfg(test)]
mod tests {
    use super::*;

    #[test]
    fn sample_values() {
        assert_eq!(exp(0.0).to_bits(), 1.0f64.to_bits());
        assert_eq!(exp(710.0), f64::INFINITY);
        assert_eq!(ln(1.0).to_bits(), 0);
    }

    #[test]
    fn special_cases() {
        assert!(ln(f64::NAN).is_nan() && ln(-1.0).is_nan() && ln(f64::NEG_INFINITY).is_nan());
        assert_eq!(ln(-0.0), f64::NEG_INFINITY);
        assert_eq!(ln(f64::INFINITY), f64::INFINITY);
        assert!(exp(f64::NAN).is_nan());
        assert_eq!(exp(f64::NEG_INFINITY).to_bits(), 0);
        assert_eq!(exp(f64::from_bits(EXP_LOW + 1)).to_bits(), 0);
        assert_eq!(exp(f64::from_bits(EXP_LOW)).to_bits(), 1);
        assert!(exp(f64::from_bits(EXP_HIGH)).is_finite());
        assert_eq!(exp(f64::from_bits(EXP_HIGH + 1)), f64::INFINITY);
    }

    #[test]
    fn powers_of_two_and_the_smallest_float() {
        assert_eq!(ln(2.0), std::f64::consts::LN_2);
        assert_eq!(ln(f64::from_bits(1)), -744.4400719213812);
        // One ulp above e, as fdlibm's.
        assert_eq!(exp(1.0).to_bits(), std::f64::consts::E.to_bits() + 1);
        assert_eq!(powf(4.0, 0.5), 2.0);
    }

    #[test]
    fn integers_as_floats() {
        assert!((-2000..2000).all(|k| float_of_integer(k).to_bits() == (k as f64).to_bits()));
    }

    #[test]
    fn sums_start_at_plus_zero() {
        assert_eq!(sum(&[]).to_bits(), 0);
        assert_eq!(sum(&[-0.0]).to_bits(), 0);
        assert_eq!(normalize(vec![1.0, 3.0]), Ok(vec![0.25, 0.75]));
    }

    #[test]
    fn sums_that_cannot_be_normalized() {
        let sums = [vec![], vec![0.0], vec![-0.0], vec![-1.0], vec![f64::NAN], vec![f64::INFINITY], vec![f64::MAX; 2]];
        assert!(sums.into_iter().all(|values| normalize(values) == Err(CalculationError::SumNotNormalizable)));
        assert_eq!(normalize(vec![f64::from_bits(1)]), Ok(vec![1.0]));
        assert!(shares(vec![0.0])[0].is_nan());
    }

    #[test]
    fn a_nan_does_not_spoil_a_max() {
        assert_eq!(max(f64::NAN, 1.0), 1.0);
        assert_eq!(max(1.0, f64::NAN), 1.0);
        assert_eq!(min(f64::NAN, 1.0), 1.0);
        assert_eq!(bits_of(-f64::NAN), WRITTEN_NAN);
    }
}
