//! The question: its words, and questions 11, 36, 13 to 18, 34 and 19 to 21.

use super::blocks::{check_right, words_of, Rule, Words, BLOCK};
use super::book::{is_positive, Book};
use crate::helpers;
use crate::named::solvers::ActivityOptions;

/// Places of the question's words.
pub const TASK: usize = 1;
pub const TEMPERATURE: usize = 2;
pub const PRESSURE: usize = 3;
pub const FRACTIONS: usize = 4;
pub const MAX_ITERATIONS: usize = 12;
pub const TOLERANCE: usize = 13;
pub const MAX_TEMPERATURE_ITERATIONS: usize = 14;
pub const ENERGY_TOLERANCE: usize = 15;
pub const TM_THRESHOLD: usize = 16;
pub const BRACKET: usize = 17;
pub const K_VALUES: usize = 19;
/// 0 where the fractions are of moles, 1 where they are of mass.
pub const BASIS: usize = 27;

pub const BY_MOLES: u64 = 0;
pub const BY_MASS: u64 = 1;

const HIGHEST_LIMIT: u64 = 1_000_000;

pub struct Question {
    words: Words,
}

impl Question {
    /// Question 11, by the book's rule.
    pub fn read(question: &[u8], rule: Rule) -> Result<Self, u32> {
        if question.len() != BLOCK {
            return Err(11);
        }
        let words = words_of(question);
        if !check_right(&words, rule) || words[0] != 8 {
            return Err(11);
        }
        Ok(Self { words })
    }

    pub fn task(&self) -> u64 {
        self.words[TASK]
    }
    /// K.
    pub fn temperature(&self) -> f64 {
        self.float(TEMPERATURE)
    }
    /// Pa.
    pub fn pressure(&self) -> f64 {
        self.float(PRESSURE)
    }
    pub fn by_moles(&self) -> bool {
        self.words[BASIS] == BY_MOLES
    }
    /// Of moles or of mass, as word 27 says.
    pub fn fractions(&self, n: usize) -> Vec<f64> {
        self.floats(FRACTIONS, n)
    }
    pub fn k_values(&self, n: usize) -> Vec<f64> {
        self.floats(K_VALUES, n)
    }
    pub fn max_iterations(&self) -> u64 {
        self.words[MAX_ITERATIONS]
    }

    pub fn options(&self) -> ActivityOptions {
        ActivityOptions {
            max_iterations: self.words[MAX_ITERATIONS] as usize,
            tolerance: self.float(TOLERANCE),
            max_temperature_iterations: self.words[MAX_TEMPERATURE_ITERATIONS] as usize,
            energy_tolerance: self.float(ENERGY_TOLERANCE),
            tm_threshold: self.float(TM_THRESHOLD),
            minimum_temperature_k: self.float(BRACKET),
            maximum_temperature_k: self.float(BRACKET + 1),
        }
    }

    fn float(&self, at: usize) -> f64 {
        f64::from_bits(self.words[at])
    }

    fn floats(&self, at: usize, n: usize) -> Vec<f64> {
        (at..at + n).map(|k| self.float(k)).collect()
    }

    /// Questions 36, 13 to 18, 34 and 19 to 21, each where the task needs it. The mole fractions of the feed.
    pub fn ask(&self, book: &Book) -> Result<Vec<f64>, u32> {
        let molar_masses = self.molar_masses(book)?;
        self.ask_feed(self.fractions(book.solvents.len()), molar_masses)
    }

    /// Those after 36, put to fractions of moles, or of mass where there are molar masses.
    pub fn ask_feed(&self, fractions: Vec<f64>, molar_masses: Option<&[f64]>) -> Result<Vec<f64>, u32> {
        let task = self.task();
        if matches!(task, 1 | 2 | 3 | 6 | 7) && !is_positive(self.temperature()) {
            return Err(13);
        }
        if matches!(task, 4 | 5 | 7) && !is_positive(self.pressure()) {
            return Err(14);
        }
        self.ask_composition(&fractions)?;
        let feed = match molar_masses {
            None => fractions,
            Some(molar_masses) => mole_feed(&fractions, molar_masses)?,
        };
        if matches!(task, 3..=7) {
            self.options().validate().map_err(|error| error.number())?;
        }
        self.ask_limits()?;
        Ok(feed)
    }

    /// Question 36. The molar masses that a feed by mass is divided by; a feed by moles has none.
    fn molar_masses<'a>(&self, book: &'a Book) -> Result<Option<&'a [f64]>, u32> {
        match (self.words[BASIS], &book.molar_masses) {
            (BY_MOLES, _) => Ok(None),
            (BY_MASS, Some(molar_masses)) => Ok(Some(molar_masses)),
            _ => Err(36),
        }
    }

    /// Questions 15 to 18, put to the fractions as they are given.
    fn ask_composition(&self, z: &[f64]) -> Result<(), u32> {
        let k = if matches!(self.task(), 8 | 9) { self.k_values(z.len()) } else { Vec::new() };
        if !z.iter().chain(&k).all(|v| v.is_finite()) {
            return Err(15);
        }
        if z.iter().any(|v| *v < 0.0) {
            return Err(16);
        }
        if k.iter().any(|v| *v <= 0.0) {
            return Err(17);
        }
        if (helpers::sum(z) - 1.0).abs() <= 1e-10 {
            Ok(())
        } else {
            Err(18)
        }
    }

    /// Question 21.
    fn ask_limits(&self) -> Result<(), u32> {
        let outer = self.words[MAX_TEMPERATURE_ITERATIONS];
        let high = match self.task() {
            3..=7 => self.max_iterations() > HIGHEST_LIMIT || outer > HIGHEST_LIMIT,
            8 | 9 => self.max_iterations() > HIGHEST_LIMIT,
            _ => false,
        };
        if high {
            Err(21)
        } else {
            Ok(())
        }
    }
}

/// Each mass fraction divided by its molar mass, normalized (34).
pub fn mole_feed(fractions: &[f64], molar_masses: &[f64]) -> Result<Vec<f64>, u32> {
    let moles = fractions.iter().zip(molar_masses).map(|(w, mass)| w / mass).collect();
    helpers::normalize(moles).map_err(|error| error.number())
}
