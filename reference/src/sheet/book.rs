//! The book: questions 1 to 9, 35, 37 and 38, and its records.

use super::blocks::{bytes_check_right, rule_of, words_of, Rule, Words, BLOCK};
use crate::named::liquid::{Correlation, PureLiquid};
use crate::named::model::ActivityModel;
use crate::named::nrtl::{Interval, NrtlModel, NrtlParameters, Pair, WilsonPair};
use crate::types::ComponentId;

/// Word of block 0 that names the model, and the models; version 1 has only NRTL.
pub const MODEL: usize = 3;
pub const NRTL: u64 = 0;
pub const WILSON: u64 = 1;

/// First word of a solvent's two correlation records.
pub const VAPOR_PRESSURE: usize = 3;
pub const DENSITY: usize = 24;
/// Word of its molar mass, which versions 2 and 3 have.
pub const MOLAR_MASS: usize = 45;

#[derive(Debug, Clone, PartialEq)]
pub struct Solvent {
    /// Without hyphens.
    pub cas: u64,
    pub vapor_pressure: Correlation,
    pub density: Correlation,
}

/// The pair blocks, (0,1), (0,2) and on, as the model reads them.
#[derive(Debug, Clone, PartialEq)]
pub enum Pairs {
    Nrtl(Vec<Pair>),
    Wilson(Vec<WilsonPair>),
}

#[derive(Debug, Clone, PartialEq)]
pub struct Book {
    /// By which its checks were made.
    pub rule: Rule,
    pub solvents: Vec<Solvent>,
    /// kg/mol; a version 1 book has none.
    pub molar_masses: Option<Vec<f64>>,
    pub pairs: Pairs,
}

impl Book {
    pub fn model(&self) -> ActivityModel {
        let ids: Vec<ComponentId> = self.solvents.iter().map(|s| ComponentId(s.cas)).collect();
        let liquids = self.solvents.iter().map(|s| PureLiquid::of_book(&s.vapor_pressure, &s.density)).collect();
        let activity = match &self.pairs {
            Pairs::Nrtl(pairs) => NrtlParameters::of_book(ids.clone(), pairs).map(NrtlModel::new),
            Pairs::Wilson(pairs) => NrtlModel::of_wilson_book(ids.clone(), pairs),
        };
        ActivityModel::of_book(ids, liquids, activity.expect("questions 1 to 9 were put"))
    }
}

/// The accepted book, or a number from 1 to 9, 35, 37 or 38. Each question is put to all blocks before the next.
pub fn open_book(book: &[u8]) -> Result<Book, u32> {
    need(!book.is_empty() && book.len().is_multiple_of(BLOCK), 1)?;
    need(version_known(&words_of(&book[..BLOCK])), 38)?;
    let rule = rule_of(book);
    need(book.chunks_exact(BLOCK).all(|block| bytes_check_right(block, rule)), 2)?;
    let blocks: Vec<Words> = book.chunks_exact(BLOCK).map(words_of).collect();
    let (version, n) = head(&blocks).ok_or(3u32)?;
    let model = blocks[0][MODEL];
    need(model == NRTL || (version != 1 && model == WILSON), 37)?;
    let wilson = model == WILSON;
    let (solvents, pairs) = blocks[1..].split_at(n);
    let due = due_pairs(n);
    need(solvents.iter().enumerate().all(|(i, w)| is_solvent(w, i)), 4)?;
    need(solvents.iter().all(|w| is_correlation(w, VAPOR_PRESSURE) && is_correlation(w, DENSITY)), 5)?;
    let molar_masses = molar_masses(version, solvents);
    need(molar_masses.iter().flatten().all(|mass| is_positive(*mass)), 35)?;
    need((0..n).all(|i| solvents[..i].iter().all(|w| w[2] != solvents[i][2])), 6)?;
    need(pairs.iter().zip(&due).all(|(w, &(i, j))| is_pair(w, i, j)), 7)?;
    need(pairs.iter().all(|w| pair_is_finite(w, if wilson { 6 } else { 14 })), 8)?;
    need(wilson || pairs.iter().all(alphas_are_equal), 9)?;
    let pairs = || pairs.iter().zip(&due);
    let pairs = if wilson {
        Pairs::Wilson(pairs().map(|(w, &(i, j))| wilson_pair(w, i, j)).collect())
    } else {
        Pairs::Nrtl(pairs().map(|(w, &(i, j))| pair(w, i, j)).collect())
    };
    Ok(Book { rule, solvents: solvents.iter().map(solvent).collect(), molar_masses, pairs })
}

fn need(yes: bool, number: u32) -> Result<(), u32> {
    if yes {
        Ok(())
    } else {
        Err(number)
    }
}

/// Kind 1 has version 1 to 3.
fn version_known(head: &Words) -> bool {
    head[0] != 1 || (1..=3).contains(&head[1])
}

/// Version and n, if block 0 is right and the number of blocks fits it.
fn head(blocks: &[Words]) -> Option<(u64, usize)> {
    let [kind, version, n] = [blocks[0][0], blocks[0][1], blocks[0][2]];
    if kind != 1 || !(1..=8).contains(&n) {
        return None;
    }
    let n = n as usize;
    (blocks.len() == 1 + n + n * (n - 1) / 2).then_some((version, n))
}

fn molar_masses(version: u64, solvents: &[Words]) -> Option<Vec<f64>> {
    (version != 1).then(|| solvents.iter().map(|w| float(w, MOLAR_MASS)).collect())
}

/// Finite and positive.
pub(super) fn is_positive(v: f64) -> bool {
    v.is_finite() && v > 0.0
}

/// (0,1), (0,2), …, (0,n−1), (1,2) and on.
pub fn due_pairs(n: usize) -> Vec<(usize, usize)> {
    (0..n).flat_map(|i| (i + 1..n).map(move |j| (i, j))).collect()
}

fn float(words: &Words, at: usize) -> f64 {
    f64::from_bits(words[at])
}

fn floats<const N: usize>(words: &Words, at: usize) -> [f64; N] {
    std::array::from_fn(|k| float(words, at + k))
}

/// Word of a record's term count.
fn count_at(record: usize) -> usize {
    record + 4
}

fn is_solvent(words: &Words, i: usize) -> bool {
    let counted = |record| (1..=8).contains(&words[count_at(record)]);
    words[0] == 2 && words[1] == i as u64 && words[2] != 0 && counted(VAPOR_PRESSURE) && counted(DENSITY)
}

/// Used floats finite, 0 < low ≤ high < t_r, reducing value positive.
fn is_correlation(words: &Words, record: usize) -> bool {
    let c = correlation(words, record);
    let [low, high] = c.range;
    let finite = [c.t_r, c.reducing_value, low, high].iter().chain(&c.n).chain(&c.exponents).all(|v| v.is_finite());
    finite && 0.0 < low && low <= high && high < c.t_r && c.reducing_value > 0.0
}

fn is_pair(words: &Words, i: usize, j: usize) -> bool {
    words[..3] == [3, i as u64, j as u64] && words[15] <= 1 && words[18] <= 1
}

/// Words 3 to `last`, and bounds only if flagged.
fn pair_is_finite(words: &Words, last: usize) -> bool {
    let finite = |from: usize, to: usize| (from..=to).all(|at| float(words, at).is_finite());
    finite(3, last) && (words[15] == 0 || finite(16, 17))
}

fn alphas_are_equal(words: &Words) -> bool {
    float(words, 11) == float(words, 13) && float(words, 12) == float(words, 14)
}

fn correlation(words: &Words, record: usize) -> Correlation {
    let count = words[count_at(record)] as usize;
    Correlation {
        t_r: float(words, record),
        reducing_value: float(words, record + 1),
        range: floats(words, record + 2),
        n: floats::<8>(words, record + 5)[..count].to_vec(),
        exponents: floats::<8>(words, record + 13)[..count].to_vec(),
    }
}

fn solvent(words: &Words) -> Solvent {
    Solvent { cas: words[2], vapor_pressure: correlation(words, VAPOR_PRESSURE), density: correlation(words, DENSITY) }
}

fn pair(words: &Words, i: usize, j: usize) -> Pair {
    Pair {
        i,
        j,
        tau_ij: floats(words, 3),
        tau_ji: floats(words, 7),
        alpha_ij: floats(words, 11),
        alpha_ji: floats(words, 13),
        interval: interval(words),
    }
}

fn wilson_pair(words: &Words, i: usize, j: usize) -> WilsonPair {
    WilsonPair { i, j, ij: floats(words, 3), ji: floats(words, 5), interval: interval(words) }
}

fn interval(words: &Words) -> Option<Interval> {
    (words[15] == 1).then(|| (floats(words, 16), words[18] == 1))
}
