//! Small books and questions, word by word; and the sheets that are compared before any others.

use crate::sheet::blocks::{book_bytes, bytes_of, rule_of, seal, words_of, Rule, Words, BLOCK};
use crate::sheet::{self, ANSWER_BYTES};
use crate::stage::Case;

pub fn sealed(words: Words) -> Vec<u8> {
    sealed_by(Rule::Plain, words)
}

pub fn sealed_by(rule: Rule, mut words: Words) -> Vec<u8> {
    seal(&mut words, rule);
    bytes_of(&words).to_vec()
}

pub fn put(words: &mut Words, at: usize, values: &[f64]) {
    for (k, v) in values.iter().enumerate() {
        words[at + k] = v.to_bits();
    }
}

/// ln p = ln(reducing) − 7 (600/T − 1), from 273.16 to 450 K.
pub fn solvent(i: u64, reducing: f64) -> Words {
    let mut words = [0; 64];
    words[..3].copy_from_slice(&[2, i, 1000 + i]);
    for (at, value) in [(3, reducing), (24, 9000.0)] {
        put(&mut words, at, &[600.0, value, 273.16, 450.0]);
        words[at + 4] = 1;
        put(&mut words, at + 5, &[-7.0]);
        put(&mut words, at + 13, &[1.0]);
    }
    words
}

/// τ from t0 alone, α = 0.3, no regression interval.
pub fn pair(i: u64, j: u64, tau: [f64; 2]) -> Words {
    let mut words = [0; 64];
    words[..3].copy_from_slice(&[3, i, j]);
    put(&mut words, 3, &[tau[0]]);
    put(&mut words, 7, &[tau[1]]);
    put(&mut words, 11, &[0.3, 0.0, 0.3, 0.0]);
    words
}

pub fn blocks(reducing: &[f64], tau: [f64; 2]) -> Vec<Words> {
    let n = reducing.len() as u64;
    let mut head = [0; 64];
    head[..3].copy_from_slice(&[1, 1, n]);
    let mut all = vec![head];
    all.extend(reducing.iter().enumerate().map(|(i, p)| solvent(i as u64, *p)));
    all.extend((0..n).flat_map(|i| (i + 1..n).map(move |j| pair(i, j, tau))));
    all
}

/// As `blocks`, with vapor pressures (Pa) that are the same at every temperature.
pub fn constant(pressures: &[f64], tau: [f64; 2]) -> Vec<Words> {
    let mut all = blocks(pressures, tau);
    for words in &mut all[1..=pressures.len()] {
        put(words, 8, &[0.0]);
    }
    all
}

pub fn bytes(blocks: &[Words]) -> Vec<u8> {
    book_bytes(blocks)
}

/// One solvent for each reducing pressure (Pa), all pairs with the same τ.
pub fn book(reducing: &[f64], tau: [f64; 2]) -> Vec<u8> {
    bytes(&blocks(reducing, tau))
}

#[derive(Clone, Copy)]
pub struct Ask(pub Words);

impl Ask {
    /// Ordinary options: M 200, tolerance 1e-10, whole bracket; 350 K and 100 kPa.
    pub fn new(task: u64, fractions: &[f64]) -> Self {
        let mut words = [0; 64];
        words[..2].copy_from_slice(&[8, task]);
        words[12] = 200;
        words[14] = 200;
        let mut ask = Self(words).at(350.0).under(1e5);
        put(&mut ask.0, 4, fractions);
        put(&mut ask.0, 13, &[1e-10]);
        put(&mut ask.0, 15, &[1e-10, -1e-8, 273.16, 450.0]);
        ask
    }

    pub fn at(self, kelvin: f64) -> Self {
        self.float(2, kelvin)
    }

    pub fn under(self, pascal: f64) -> Self {
        self.float(3, pascal)
    }

    pub fn k(mut self, values: &[f64]) -> Self {
        put(&mut self.0, 19, values);
        self
    }

    pub fn float(self, at: usize, v: f64) -> Self {
        self.word(at, v.to_bits())
    }

    pub fn word(mut self, at: usize, word: u64) -> Self {
        self.0[at] = word;
        self
    }

    /// Both limits.
    pub fn limits(self, limit: u64) -> Self {
        self.word(12, limit).word(14, limit)
    }

    /// To a book of version 1 or 2.
    pub fn bytes(self) -> Vec<u8> {
        sealed(self.0)
    }

    /// To a book of any version.
    pub fn bytes_for(self, book: &[u8]) -> Vec<u8> {
        sealed_by(rule_of(book), self.0)
    }
}

/// A book, a question, and the number it has to give; 0 is an answer.
type Asked = (Vec<u8>, Ask, u32);

fn two() -> Vec<u8> {
    book(&[4e6, 1e6], [0.0, 0.0])
}

fn halves(task: u64) -> Ask {
    Ask::new(task, &[0.5, 0.5]).k(&[2.0, 0.5])
}

/// The sheets of docs/FORMAT.md (d) to (m).
fn samples() -> Vec<Asked> {
    vec![
        (two(), halves(8), 0),
        (two(), halves(8).k(&[0.5, 0.5]), 0),
        (two(), halves(8).k(&[1.0, 1.0]), 0),
        (two(), halves(8).k(&[2.0, 2.0]), 0),
        (two(), halves(9).k(&[2.0, 2.0]), 28),
        (book(&[4e6], [0.0, 0.0]), Ask::new(1, &[1.0]).at(300.0), 0),
        (two(), halves(1).at(300.0), 0),
        (two(), Ask::new(8, &[0.5, 0.5000000002]).k(&[2.0, 0.5]), 18),
        (two(), halves(7).word(12, 0), 20),
        (two(), halves(2).at(273.15), 22),
    ]
}

/// The ends of the temperature range, given or tried, and the next floats outside; the highest limits, and one more.
fn ends() -> Vec<Asked> {
    // At 450 K a lighter book would be above 500 kPa.
    let heavy = book(&[1e6, 2e6], [0.1, 0.2]);
    let mut asked = Vec::new();
    for task in [2, 3, 7] {
        for (t, number) in [(273.16, 0), (450.0, 0), (273.15999999999997, 22), (450.00000000000006, 22)] {
            asked.push((heavy.clone(), halves(task).at(t).under(3e4), number));
        }
    }
    for task in 3..=9 {
        for (limit, number) in [(200, 0), (1_000_000, 0), (1_000_001, 21)] {
            asked.push((heavy.clone(), halves(task).under(3e4).limits(limit), number));
        }
    }
    asked
}

/// A flash at the bubble pressure: liquid, if its trials pass.
fn at_bubble() -> Vec<Asked> {
    let flash = |tau: [f64; 2], number: u32| {
        let book = book(&[4e6, 1e6], tau);
        let mut answer = [0; ANSWER_BYTES];
        assert_eq!(sheet::answer(&book, &halves(2).bytes(), &mut answer), 0);
        let bubble = f64::from_bits(words_of(&answer[..BLOCK])[5]);
        (book, halves(7).under(bubble), number)
    };
    vec![flash([0.0, 0.0], 0), flash([0.9, 0.4], 0), flash([3.0, 3.0], 29)]
}

/// The samples of docs/FORMAT.md and "Others".
pub fn others() -> Vec<(Case, u32)> {
    let case = |(book, ask, number): Asked| (Case::Sheet { book, question: ask.bytes(), room: ANSWER_BYTES }, number);
    samples().into_iter().chain(ends()).chain(at_bubble()).map(case).collect()
}
