//! The largest distance of the helper exp and ln from Rust's own, in ulps, over results that are normal floats.

use reference::generate::{numbers, Rng};
use reference::helpers;

const INPUTS: usize = 4_000_000;

fn main() {
    report("exp", helpers::exp, f64::exp, numbers::for_exp);
    report("ln", helpers::ln, f64::ln, numbers::for_ln);
}

fn report(name: &str, helper: fn(f64) -> f64, own: fn(f64) -> f64, input: fn(&mut Rng) -> f64) {
    let mut rng = Rng::new(1);
    let (mut largest, mut at, mut compared) = (0, 0.0, 0);
    for _ in 0..INPUTS {
        let v = input(&mut rng);
        let (a, b) = (helper(v), own(v));
        if !a.is_normal() || !b.is_normal() {
            continue;
        }
        compared += 1;
        let distance = a.to_bits().abs_diff(b.to_bits());
        if distance > largest {
            (largest, at) = (distance, v);
        }
    }
    println!("{name}: at most {largest} ulps over {compared} normal results; first at {at:e} ({:016x})", at.to_bits());
}
