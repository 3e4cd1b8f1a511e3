//! Books: realistic, with wild floats, and damaged for each of the numbers 1 to 9, and 38.

use super::{beside, numbers, Rng};
use crate::sheet::blocks::{book_bytes, Words, BLOCK};
use crate::sheet::book::{due_pairs, DENSITY, NRTL, VAPOR_PRESSURE};

/// Places in a correlation record.
pub(super) const REDUCING: usize = 1;
pub(super) const LOW: usize = 2;
pub(super) const HIGH: usize = 3;
pub(super) const COUNT: usize = 4;
pub(super) const N: usize = 5;
pub(super) const EXPONENTS: usize = 13;

/// Places in a pair block.
pub(super) const TAU: usize = 3;
const ALPHA_IJ: usize = 11;
const ALPHA_JI: usize = 13;
pub(super) const FLAG: usize = 15;
pub(super) const BOUNDS: usize = 16;
const INFERRED: usize = 18;

/// CAS numbers of common solvents, without hyphens.
const CAS: [u64; 12] = [64175, 67561, 67641, 71432, 75058, 108883, 110543, 141786, 7732185, 109999, 67630, 78933];

/// A book whose checks are not yet made.
#[derive(Debug, Clone)]
pub struct Draft {
    pub blocks: Vec<Words>,
    pub n: usize,
}

impl Draft {
    pub fn bytes(&self) -> Vec<u8> {
        book_bytes(&self.blocks)
    }

    fn solvent(&mut self, i: usize) -> &mut Words {
        &mut self.blocks[1 + i]
    }

    /// Places of the pair blocks that solvent i is in.
    pub(super) fn pairs_of(&self, i: usize) -> Vec<usize> {
        let due = due_pairs(self.n).into_iter().enumerate();
        due.filter(|(_, (a, b))| *a == i || *b == i).map(|(k, _)| 1 + self.n + k).collect()
    }

    pub(super) fn any_pair(&self, rng: &mut Rng) -> Option<usize> {
        let pairs = due_pairs(self.n).len();
        (pairs > 0).then(|| 1 + self.n + rng.below(pairs))
    }
}

pub(super) fn put(words: &mut Words, at: usize, v: f64) {
    words[at] = v.to_bits();
}

fn get(words: &Words, at: usize) -> f64 {
    f64::from_bits(words[at])
}

/// Vapor pressures and interactions as solvents have them; words that are not read may hold anything.
pub fn realistic(rng: &mut Rng, n: usize) -> Draft {
    let junk = rng.junk();
    let mut head = unread(rng, junk);
    head[..4].copy_from_slice(&[1, 1, n as u64, NRTL]);
    let mut blocks = vec![head];
    let first = rng.below(CAS.len());
    let polar = rng.one_in(4);
    blocks.extend((0..n).map(|i| solvent(rng, i, CAS[(first + i) % CAS.len()], junk)));
    blocks.extend(due_pairs(n).into_iter().map(|(i, j)| pair(rng, i, j, polar, junk)));
    Draft { blocks, n }
}

fn unread(rng: &mut Rng, junk: bool) -> Words {
    std::array::from_fn(|_| if junk { rng.bits() } else { 0 })
}

fn solvent(rng: &mut Rng, i: usize, cas: u64, junk: bool) -> Words {
    let mut words = unread(rng, junk);
    words[..3].copy_from_slice(&[2, i as u64, cas]);
    let t_r = rng.range(500.0, 700.0);
    let vapor_terms = [
        (rng.range(-9.0, -6.5), 1.0),
        (rng.range(0.5, 3.0), 1.5),
        (rng.range(-4.0, -1.5), rng.pick(&[2.5, 3.0])),
        (rng.range(-3.0, -0.5), rng.range(4.0, 6.0)),
        (rng.range(-0.5, 0.5), rng.range(6.0, 12.0)),
        (rng.range(-0.1, 0.1), 0.5),
        (rng.range(-0.1, 0.1), rng.range(0.3, 20.0)),
        (rng.range(-0.1, 0.1), rng.range(0.3, 20.0)),
    ];
    let density_terms = [(); 8].map(|_| (rng.range(-2.0, 3.0), rng.range(0.2, 6.0)));
    let reducing = rng.range(2.5e6, 9e6);
    let vapor_count = rng.between(1, 8).max(3);
    let density_count = rng.between(1, 8);
    correlation(rng, &mut words, VAPOR_PRESSURE, t_r, reducing, &vapor_terms[..vapor_count]);
    let t_c = t_r * rng.range(0.99, 1.01);
    let density = rng.range(2000.0, 15000.0);
    correlation(rng, &mut words, DENSITY, t_c, density, &density_terms[..density_count]);
    words
}

fn correlation(rng: &mut Rng, words: &mut Words, at: usize, t_r: f64, reducing: f64, terms: &[(f64, f64)]) {
    let [low, high] = match rng.below(20) {
        // Narrower than the model's range, or just as wide.
        0 => [rng.range(273.16, 300.0), rng.range(400.0, 450.0)],
        1..=4 => [273.16, 450.0],
        _ => [rng.range(180.0, 273.16), rng.range(450.0, 0.99 * t_r)],
    };
    put(words, at, t_r);
    put(words, at + REDUCING, reducing);
    put(words, at + LOW, low);
    put(words, at + HIGH, high);
    words[at + COUNT] = terms.len() as u64;
    for (k, (n, exponent)) in terms.iter().enumerate() {
        put(words, at + N + k, *n);
        put(words, at + EXPONENTS + k, *exponent);
    }
}

pub(super) fn pair(rng: &mut Rng, i: usize, j: usize, polar: bool, junk: bool) -> Words {
    let mut words = unread(rng, junk);
    words[..3].copy_from_slice(&[3, i as u64, j as u64]);
    for direction in 0..2 {
        tau(rng, &mut words, TAU + 4 * direction, polar);
    }
    let a0 = if rng.one_in(2) { rng.pick(&[0.2, 0.3, 0.4, 0.47]) } else { rng.range(0.2, 0.5) };
    let a1 = if rng.one_in(5) { rng.range(-2e-4, 4e-4) } else { 0.0 };
    put_alphas(&mut words, a0, a1);
    words[FLAG] = u64::from(rng.percent(70));
    words[INFERRED] = u64::from(rng.percent(40));
    if words[FLAG] == 1 {
        put(&mut words, BOUNDS, rng.range(250.0, 340.0));
        put(&mut words, BOUNDS + 1, rng.range(320.0, 460.0));
    }
    words
}

/// τ between about −1 and 3 at 350 K; up to 6 where the liquids may split.
fn tau(rng: &mut Rng, words: &mut Words, at: usize, polar: bool) {
    let strong = polar && rng.one_in(2);
    put(words, at, rng.range(-0.8, 0.8));
    put(words, at + 1, if strong { rng.range(500.0, 1600.0) } else { rng.range(-200.0, 500.0) });
    put(words, at + 2, if rng.one_in(5) { rng.range(-0.1, 0.1) } else { 0.0 });
    put(words, at + 3, if rng.one_in(5) { rng.range(-1e-3, 1e-3) } else { 0.0 });
}

pub(super) fn put_alphas(words: &mut Words, a0: f64, a1: f64) {
    for at in [ALPHA_IJ, ALPHA_JI] {
        put(words, at, a0);
        put(words, at + 1, a1);
    }
}

/// Extreme floats in one solvent and its pairs; questions 1 to 9 still pass.
pub fn make_wild(rng: &mut Rng, draft: &mut Draft, i: usize) {
    for _ in 0..rng.between(1, 3) {
        let record = rng.pick(&[VAPOR_PRESSURE, VAPOR_PRESSURE, VAPOR_PRESSURE, DENSITY]);
        wild_correlation(rng, draft.solvent(i), record);
    }
    for at in draft.pairs_of(i) {
        if rng.one_in(2) {
            wild_pair(rng, &mut draft.blocks[at]);
        }
    }
}

/// A vapor pressure at an end of the floats and large activity coefficients, for a solvent that is there as a trace.
pub fn make_extreme(rng: &mut Rng, draft: &mut Draft, i: usize) {
    let reducing = if rng.one_in(2) { rng.decade(-322.0, -315.0) } else { rng.decade(300.0, 308.2) };
    put(draft.solvent(i), VAPOR_PRESSURE + REDUCING, reducing);
    for at in draft.pairs_of(i) {
        if rng.one_in(2) {
            let words = &mut draft.blocks[at];
            put(words, TAU, rng.range(0.0, 30.0));
            put(words, TAU + 4, rng.range(0.0, 30.0));
        }
    }
}

fn wild_correlation(rng: &mut Rng, words: &mut Words, at: usize) {
    let term = rng.below(8);
    match rng.below(9) {
        // Pressures near both ends of the floats.
        0 | 1 => put(words, at + REDUCING, rng.decade(-322.0, 308.0)),
        2 => put(words, at + N + term, rng.range(-900.0, 900.0)),
        3 => put(words, at + N + term, numbers::finite(rng)),
        4 => put(words, at + EXPONENTS + term, numbers::finite(rng)),
        5 => put(words, at + EXPONENTS + term, rng.range(-300.0, 300.0)),
        6 => put(words, at + REDUCING, numbers::positive(rng)),
        7 => wild_range(rng, words, at),
        // Pressures of nearly nothing that still are positive.
        _ => put(words, at + REDUCING, f64::from_bits(rng.bits() >> 12)),
    }
    if get(words, at + REDUCING) <= 0.0 {
        words[at + REDUCING] = 1;
    }
}

/// 0 < low ≤ high < t_r, of any size or around the model's range.
fn wild_range(rng: &mut Rng, words: &mut Words, at: usize) {
    let mut three = if rng.one_in(4) {
        [numbers::positive(rng), numbers::positive(rng), numbers::positive(rng)]
    } else {
        [rng.range(1.0, 300.0), rng.range(290.0, 460.0), rng.decade(2.7, 308.0)]
    };
    three.sort_by(f64::total_cmp);
    if three[1] < three[2] {
        put(words, at + LOW, three[0]);
        put(words, at + HIGH, three[1]);
        put(words, at, three[2]);
    }
}

pub(super) fn wild_pair(rng: &mut Rng, words: &mut Words) {
    let term = TAU + rng.below(8);
    match rng.below(10) {
        0 => put(words, term, numbers::finite(rng)),
        1 => (TAU..TAU + 8).for_each(|at| put(words, at, numbers::finite(rng))),
        // G and τ G near both ends of the floats.
        2 => put(words, TAU + 4 * rng.below(2), rng.range(-4000.0, 4000.0)),
        3 => put(words, TAU + 4 * rng.below(2) + 1, rng.sign() * rng.decade(4.0, 7.0)),
        4 => put(words, TAU + 4 * rng.below(2), rng.sign() * rng.decade(-320.0, -300.0)),
        5 => put_alphas(words, rng.sign() * rng.decade(-320.0, -1.0), 0.0),
        6 => {
            // Changes its sign between 273 and 450 K.
            let t = rng.range(273.0, 450.0);
            put_alphas(words, rng.sign(), 0.0);
            let a0 = get(words, ALPHA_IJ);
            put_alphas(words, a0, -a0 / t);
        }
        7 => put_alphas(words, numbers::finite(rng), numbers::finite(rng)),
        8 => {
            // Equal as floats, not as bits.
            put_alphas(words, 0.0, rng.range(1e-4, 1e-3));
            put(words, ALPHA_JI, -0.0);
        }
        _ => {
            words[FLAG] = 1;
            put(words, BOUNDS, numbers::finite(rng));
            put(words, BOUNDS + 1, numbers::finite(rng));
        }
    }
}

/// A realistic book, or one with wild solvents.
pub fn any(rng: &mut Rng, n: usize) -> Draft {
    let mut draft = realistic(rng, n);
    match rng.below(3) {
        0 => {}
        1 => {
            let i = rng.below(n);
            make_wild(rng, &mut draft, i);
        }
        _ => (0..n).for_each(|i| make_wild(rng, &mut draft, i)),
    }
    draft
}

/// At the edge of a question, on its right side.
pub fn at_the_edge(rng: &mut Rng, draft: &mut Draft) {
    let i = rng.below(draft.n);
    let record = rng.pick(&[VAPOR_PRESSURE, DENSITY]);
    let pair = draft.any_pair(rng);
    let words = draft.solvent(i);
    match rng.below(5) {
        0 => words[record + HIGH] = words[record + LOW],
        1 => words[record] = words[record + HIGH] + 1,
        2 => words[record + REDUCING] = 1,
        3 => {
            // Coefficients past the count are not read.
            let count = words[record + COUNT] as usize;
            (count..8).for_each(|k| put(words, record + N + k, f64::NAN));
        }
        _ => words[2] = u64::MAX - i as u64,
    }
    if let Some(at) = pair {
        pair_at_the_edge(rng, &mut draft.blocks[at]);
    }
}

/// Bounds that are not read, or in the wrong order; alphas that are equal as floats.
pub(super) fn pair_at_the_edge(rng: &mut Rng, words: &mut Words) {
    match rng.below(3) {
        0 => {
            words[FLAG] = 0;
            words[BOUNDS] = f64::NAN.to_bits();
            words[BOUNDS + 1] = f64::INFINITY.to_bits();
        }
        1 => {
            words[FLAG] = 1;
            words.swap(BOUNDS, BOUNDS + 1);
            words[BOUNDS] = 0;
        }
        _ => {
            put(words, ALPHA_IJ + 1, 0.0);
            put(words, ALPHA_JI + 1, -0.0);
        }
    }
}

/// The bytes of the book with one or two things wrong.
pub fn spoiled(rng: &mut Rng, draft: &Draft) -> Vec<u8> {
    let both = [rng.between(1, 9) as u32, rng.between(1, 9) as u32];
    damaged(rng, draft, &both[..rng.clone().between(1, 2)])
}

/// The bytes of the book with one thing wrong for each of the numbers.
pub fn damaged(rng: &mut Rng, draft: &Draft, numbers: &[u32]) -> Vec<u8> {
    let mut draft = draft.clone();
    // The number of blocks last, so that the others still find theirs.
    let mut ordered: Vec<u32> = numbers.to_vec();
    ordered.sort_by(|a, b| b.cmp(a));
    for number in &ordered {
        match number {
            3 => damage_head(rng, &mut draft),
            4..=6 => damage_solvent(rng, &mut draft, *number),
            7..=9 => damage_pair(rng, &mut draft, *number),
            _ => {}
        }
    }
    let mut bytes = draft.bytes();
    if numbers.contains(&2) && !bytes.is_empty() {
        let at = rng.below(bytes.len());
        bytes[at] ^= 1 << rng.below(8);
    }
    if numbers.contains(&1) {
        damage_length(rng, &mut bytes);
    }
    bytes
}

fn damage_length(rng: &mut Rng, bytes: &mut Vec<u8>) {
    match rng.below(5) {
        0 => bytes.clear(),
        1 => drop(bytes.pop()),
        2 => bytes.push(0),
        3 => bytes.truncate(rng.below(bytes.len().max(1))),
        _ => bytes.extend(std::iter::repeat_n(7, rng.between(1, BLOCK - 1))),
    }
}

/// 38 where the version is none.
pub(super) fn damage_head(rng: &mut Rng, draft: &mut Draft) {
    let n = draft.n as u64;
    match rng.below(8) {
        0 => draft.blocks[0][0] = rng.pick(&[0, 2, 1 << 32 | 1, rng.clone().bits()]),
        1 => draft.blocks[0][1] = rng.pick(&[0, 4, 5, 1 << 63 | 1]),
        2 => draft.blocks[0][2] = rng.pick(&[0, 9, n + 1, n - 1, u64::MAX, 1 << 32 | n]),
        3 => drop(draft.blocks.pop()),
        4 => {
            let last = *draft.blocks.last().expect("block 0 is there");
            draft.blocks.push(last);
        }
        5 => draft.blocks.truncate(1),
        6 => draft.blocks.truncate(1 + draft.n),
        _ => draft.blocks.resize(rng.between(38, 40), [0; 64]),
    }
    if draft.blocks.is_empty() {
        draft.blocks.push([0; 64]);
    }
}

fn damage_solvent(rng: &mut Rng, draft: &mut Draft, number: u32) {
    let i = rng.below(draft.n);
    let other = draft.blocks[1 + rng.below(draft.n)][2];
    let record = rng.pick(&[VAPOR_PRESSURE, DENSITY]);
    let words = draft.solvent(i);
    match number {
        4 | 5 => spoil_solvent(rng, words, i, record, number),
        // The same number as another solvent; with one solvent there is nothing to damage.
        _ => words[2] = other,
    }
}

/// One thing wrong in the block of solvent i, or in this record, for 4 or 5.
pub(super) fn spoil_solvent(rng: &mut Rng, words: &mut Words, i: usize, record: usize, number: u32) {
    if number == 5 {
        return damage_correlation(rng, words, record);
    }
    match rng.below(4) {
        0 => words[0] = rng.pick(&[0, 1, 3, 1 << 40 | 2]),
        1 => words[1] = rng.pick(&[i as u64 + 1, u64::MAX, 1 << 32 | i as u64]),
        2 => words[2] = 0,
        _ => words[record + COUNT] = rng.pick(&[0, 9, u64::MAX, 1 << 32 | 1]),
    }
}

fn damage_correlation(rng: &mut Rng, words: &mut Words, at: usize) {
    let count = (words[at + COUNT] as usize).clamp(1, 8);
    let (low, high, t_r) = (get(words, at + LOW), get(words, at + HIGH), get(words, at));
    match rng.below(9) {
        0 => put(words, at + rng.below(4), numbers::not_finite(rng)),
        1 => put(words, at + N + rng.below(count), numbers::not_finite(rng)),
        2 => put(words, at + EXPONENTS + rng.below(count), numbers::not_finite(rng)),
        3 => put(words, at + LOW, rng.pick(&[0.0, -0.0, -low, -f64::from_bits(1)])),
        4 => words[at + LOW] = words[at + HIGH].wrapping_add(1),
        5 => put(words, at + HIGH, t_r),
        6 => put(words, at, beside(rng, high).min(high)),
        7 => put(words, at + REDUCING, rng.pick(&[0.0, -0.0, -1.0, -f64::from_bits(1)])),
        _ => put(words, at + HIGH, 2.0 * t_r),
    }
}

fn damage_pair(rng: &mut Rng, draft: &mut Draft, number: u32) {
    let Some(at) = draft.any_pair(rng) else { return };
    if let Some(words) = draft.blocks.get_mut(at) {
        spoil_pair(rng, words, number);
    }
}

/// One thing wrong in an NRTL pair block for 7, 8 or 9.
pub(super) fn spoil_pair(rng: &mut Rng, words: &mut Words, number: u32) {
    match number {
        7 => match rng.below(5) {
            0 => words[0] = rng.pick(&[0, 2, 4, 1 << 40 | 3]),
            1 => words[1] = words[1].wrapping_add(rng.pick(&[1, u64::MAX, 1 << 32])),
            2 => words[2] = words[2].wrapping_add(rng.pick(&[1, u64::MAX, 1 << 32])),
            3 => words[FLAG] = rng.pick(&[2, u64::MAX, 1 << 32 | 1]),
            _ => words[INFERRED] = rng.pick(&[2, u64::MAX, 1 << 32]),
        },
        8 => match rng.below(3) {
            0 => {
                words[FLAG] = 1;
                put(words, BOUNDS + rng.below(2), numbers::not_finite(rng));
            }
            _ => put(words, TAU + rng.below(12), numbers::not_finite(rng)),
        },
        _ => {
            let k = ALPHA_IJ + rng.below(4);
            words[k] = if rng.one_in(2) { words[k] ^ 1 } else { numbers::finite(rng).to_bits() };
        }
    }
}
