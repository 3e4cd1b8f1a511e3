//! Blocks of 512 bytes: 64 little-endian words of 64 bits, a float as its bits; word 63 is the check of words 0 to 62.

use crate::format::any::{CHECK, KIND};
use crate::format::VERSION_RUNNING;

/// Bytes of a block.
pub const BLOCK: usize = 512;

/// What the check is of words 0 to 62, modulo 2^64. All blocks of a call go by the version of its book.
///
/// ```
/// use zektonk::{Block, Rule, Words};
///
/// let words = Words::new(1).word(1, 3).word(2, 2);
/// assert_eq!(Rule::of_version(3), Rule::Running);
/// // Word k is in it 63 − k times.
/// assert_eq!(Block::new(&words.clone().seal_by(Rule::Running)).word(63), 63 + 62 * 3 + 61 * 2);
/// assert_eq!(Block::new(&words.seal()).word(63), 6);
/// ```
#[derive(Debug, Clone, Copy, PartialEq, Eq, Hash, Default)]
pub enum Rule {
    /// Their sum.
    #[default]
    Plain,
    /// The sum of the running sums after each of them, in which two exchanged neighbours show.
    Running,
}

impl Rule {
    /// Of a book of this version.
    #[must_use]
    pub fn of_version(version: u64) -> Self {
        if version == VERSION_RUNNING {
            Self::Running
        } else {
            Self::Plain
        }
    }
}

/// A block of somebody's bytes, read where it lies.
///
/// ```
/// use zektonk::{Block, Words};
///
/// let bytes = Words::new(8).word(1, 2).float(2, 350.0).seal();
/// let block = Block::new(&bytes);
/// assert_eq!((block.word(1), block.float(2)), (2, 350.0));
/// assert!(block.check_is_right());
/// let mut damaged = bytes;
/// damaged[8] ^= 1;
/// assert!(!Block::new(&damaged).check_is_right());
/// ```
#[derive(Debug, Clone, Copy)]
pub struct Block<'a>(&'a [u8; BLOCK]);

impl<'a> Block<'a> {
    /// The block of these bytes.
    #[must_use]
    pub fn new(bytes: &'a [u8; BLOCK]) -> Self {
        Self(bytes)
    }

    /// Block `at` of a row of blocks, if it is there whole.
    #[must_use]
    pub fn of(bytes: &'a [u8], at: usize) -> Option<Self> {
        let from = at.checked_mul(BLOCK)?;
        bytes.get(from..)?.first_chunk().map(Self)
    }

    /// Its bytes.
    #[must_use]
    pub fn bytes(self) -> &'a [u8; BLOCK] {
        self.0
    }

    /// A word by its place, 0 to 63.
    ///
    /// # Panics
    ///
    /// Past 63.
    #[must_use]
    pub fn word(self, at: usize) -> u64 {
        let bytes = self.0[8 * at..].first_chunk().expect("a block has 64 words");
        u64::from_le_bytes(*bytes)
    }

    /// The float whose bits a word holds.
    ///
    /// # Panics
    ///
    /// Past 63.
    #[must_use]
    pub fn float(self, at: usize) -> f64 {
        f64::from_bits(self.word(at))
    }

    /// Sum of words 0 to 62 modulo 2^64.
    #[must_use]
    pub fn sum(self) -> u64 {
        self.sum_by(Rule::Plain)
    }

    /// The check of words 0 to 62.
    #[must_use]
    pub fn sum_by(self, rule: Rule) -> u64 {
        let (mut sum, mut running) = (0u64, 0u64);
        for at in 0..CHECK {
            sum = sum.wrapping_add(self.word(at));
            running = running.wrapping_add(sum);
        }
        match rule {
            Rule::Plain => sum,
            Rule::Running => running,
        }
    }

    /// Whether word 63 is the sum, as with books of version 1 and 2.
    #[must_use]
    pub fn check_is_right(self) -> bool {
        self.check_is_right_by(Rule::Plain)
    }

    /// Whether word 63 is the check.
    #[must_use]
    pub fn check_is_right_by(self, rule: Rule) -> bool {
        self.word(CHECK) == self.sum_by(rule)
    }
}

/// The words of a block in the making; those not set are 0.
#[derive(Debug, Clone)]
#[must_use = "words become a block by `seal`"]
pub struct Words([u8; BLOCK]);

impl Words {
    /// Word 0 is the kind.
    pub fn new(kind: u64) -> Self {
        Self([0; BLOCK]).word(KIND, kind)
    }

    /// Sets a word by its place, 0 to 62.
    ///
    /// # Panics
    ///
    /// Past 62: word 63 is the check.
    pub fn word(mut self, at: usize, value: u64) -> Self {
        assert!(at < CHECK, "word 63 is the check");
        self.0[8 * at..8 * at + 8].copy_from_slice(&value.to_le_bytes());
        self
    }

    /// Sets a word to a float's bits.
    ///
    /// # Panics
    ///
    /// Past 62.
    pub fn float(self, at: usize, value: f64) -> Self {
        self.word(at, value.to_bits())
    }

    /// Sets words in a row.
    ///
    /// # Panics
    ///
    /// Where a value would stand past 62.
    pub fn floats(self, at: usize, values: &[f64]) -> Self {
        values.iter().zip(at..).fold(self, |words, (value, at)| words.float(at, *value))
    }

    /// The block's bytes with its check, as books of version 1 and 2 have it.
    #[must_use]
    pub fn seal(self) -> [u8; BLOCK] {
        self.seal_by(Rule::Plain)
    }

    /// The block's bytes with its check.
    #[must_use]
    pub fn seal_by(mut self, rule: Rule) -> [u8; BLOCK] {
        let sum = Block::new(&self.0).sum_by(rule);
        self.0[8 * CHECK..].copy_from_slice(&sum.to_le_bytes());
        self.0
    }
}

#[cfg(test)]
mod tests {
    use super::*;

    #[test]
    fn sum_wraps() {
        let bytes = Words::new(u64::MAX).word(1, 3).word(62, 1).seal();
        assert_eq!(Block::new(&bytes).word(63), 3);
        assert!(Block::new(&bytes).check_is_right());
    }

    #[test]
    fn running_sums_weigh_each_word() {
        let mut state = 1u64;
        let words = (0..CHECK).fold(Words::new(0), |words, at| {
            state = state.wrapping_mul(6_364_136_223_846_793_005).wrapping_add(1_442_695_040_888_963_407);
            words.word(at, state)
        });
        let bytes = words.seal_by(Rule::Running);
        let block = Block::new(&bytes);
        let weighed = (0..CHECK).map(|at| block.word(at).wrapping_mul((CHECK - at) as u64));
        assert_eq!(block.word(CHECK), weighed.fold(0, u64::wrapping_add));
        assert!(block.check_is_right_by(Rule::Running) && !block.check_is_right());
        for at in 0..CHECK - 1 {
            let mut exchanged = bytes;
            exchanged.copy_within(8 * at..8 * at + 8, 8 * at + 8);
            exchanged[8 * at..8 * at + 8].copy_from_slice(&bytes[8 * at + 8..8 * at + 16]);
            assert_eq!(Block::new(&exchanged).sum(), block.sum());
            assert!(!Block::new(&exchanged).check_is_right_by(Rule::Running), "{at}");
        }
    }

    #[test]
    fn rules_of_versions() {
        assert_eq!(
            [0, 1, 2, 3, 4, 1 << 32 | 3].map(Rule::of_version).map(|rule| rule == Rule::Running),
            [false, false, false, true, false, false]
        );
    }

    #[test]
    fn floats_keep_their_bits() {
        for value in [-0.0, f64::from_bits(1), f64::NEG_INFINITY, f64::from_bits(0x7ff8_0000_dead_beef)] {
            let bytes = Words::new(8).float(5, value).seal();
            assert_eq!(Block::new(&bytes).word(5), value.to_bits());
        }
    }

    #[test]
    fn blocks_of_a_row() {
        let row = [Words::new(1).seal(), Words::new(2).seal()].concat();
        assert_eq!(Block::of(&row, 1).map(|block| block.word(0)), Some(2));
        assert!(Block::of(&row, 2).is_none());
        assert!(Block::of(&row[..1023], 1).is_none());
        assert!(Block::of(&row, usize::MAX).is_none());
        // The caller's own bytes.
        assert!(std::ptr::eq(Block::of(&row, 1).unwrap().bytes().as_ptr(), &row[512]));
    }

    #[test]
    #[should_panic(expected = "word 63 is the check")]
    fn the_check_is_not_set_by_hand() {
        let _ = Words::new(1).word(63, 0);
    }
}
