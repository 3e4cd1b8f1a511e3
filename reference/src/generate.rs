//! Seeded inputs: realistic, wild, damaged and at the boundaries.

pub mod absent;
pub mod batches;
pub mod books;
pub mod cases;
pub mod differences;
pub mod distances;
pub mod exchanged;
pub mod feeds;
pub mod limits;
pub mod mass;
pub mod numbers;
pub mod places;
pub mod pooled;
pub mod previews;
pub mod questions;
pub mod queues;
pub mod readers;
pub mod rice;
pub mod sentences;
pub mod small;
pub mod vanish;
pub mod wilson;

use crate::helpers;

/// SplitMix64.
#[derive(Debug, Clone)]
pub struct Rng {
    state: u64,
    /// Every how many blocks hold anything in the words that are not read.
    junk_in: usize,
}

impl Rng {
    pub fn new(seed: u64) -> Self {
        Self { state: seed, junk_in: 2 }
    }

    /// Fewer blocks with anything in the words that are not read, for stored samples.
    pub fn tidy(seed: u64) -> Self {
        Self { state: seed, junk_in: 16 }
    }

    pub fn junk(&mut self) -> bool {
        self.one_in(self.junk_in)
    }

    pub fn bits(&mut self) -> u64 {
        self.state = self.state.wrapping_add(0x9e37_79b9_7f4a_7c15);
        let mut z = self.state;
        z = (z ^ (z >> 30)).wrapping_mul(0xbf58_476d_1ce4_e5b9);
        z = (z ^ (z >> 27)).wrapping_mul(0x94d0_49bb_1331_11eb);
        z ^ (z >> 31)
    }

    /// 0 to n − 1.
    pub fn below(&mut self, n: usize) -> usize {
        (self.bits() % n as u64) as usize
    }

    pub fn between(&mut self, low: usize, high: usize) -> usize {
        low + self.below(high - low + 1)
    }

    /// From 0 up to, not including, 1.
    pub fn unit(&mut self) -> f64 {
        (self.bits() >> 11) as f64 / (1u64 << 53) as f64
    }

    pub fn range(&mut self, low: f64, high: f64) -> f64 {
        low + (high - low) * self.unit()
    }

    /// Uniform in the exponent of ten.
    pub fn decade(&mut self, low: f64, high: f64) -> f64 {
        helpers::exp(self.range(low, high) * std::f64::consts::LN_10)
    }

    pub fn one_in(&mut self, n: usize) -> bool {
        self.below(n) == 0
    }

    pub fn percent(&mut self, p: usize) -> bool {
        self.below(100) < p
    }

    pub fn pick<T: Copy>(&mut self, from: &[T]) -> T {
        from[self.below(from.len())]
    }

    pub fn sign(&mut self) -> f64 {
        if self.one_in(2) {
            1.0
        } else {
            -1.0
        }
    }
}

/// A float a few steps beside v.
pub fn beside(rng: &mut Rng, v: f64) -> f64 {
    let steps = rng.below(7) as i64 - 3;
    f64::from_bits(v.to_bits().wrapping_add_signed(steps))
}
