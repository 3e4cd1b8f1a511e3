//! Where a call said no, plain Rust: each block of a book, or each pair of solvents, is asked by itself whether it is the one that a
//! number speaks of, in the book's order, and the first is the place. Once the book passed, a preview's no is the offered block's.

use super::anew::{check, equal, is_finite, word};
use super::blocks::BLOCK;
use super::book::{DENSITY, MODEL, VAPOR_PRESSURE, WILSON};
use super::{open_book, preview};

/// Words of a place.
pub const PLACE_WORDS: usize = 3;

#[derive(Debug, Clone, Copy, PartialEq, Eq, PartialOrd, Ord, Hash)]
pub enum Place {
    Nowhere,
    /// Of the book, counted from 0.
    Block(u64),
    /// Two solvents, counted from 0.
    Pair(u64, u64),
    /// The block that a preview tries.
    Offered,
}

use Place::{Block, Nowhere, Offered, Pair};

impl Place {
    /// Its kind, then the block or both solvents, else 0.
    pub fn words(self) -> [u64; PLACE_WORDS] {
        match self {
            Nowhere => [0, 0, 0],
            Block(k) => [1, k, 0],
            Pair(i, j) => [2, i, j],
            Offered => [3, 0, 0],
        }
    }

    /// Another kind, or fewer words, is no place.
    pub fn of(words: &[u64]) -> Self {
        match words {
            [1, k, _, ..] => Block(*k),
            [2, i, j, ..] => Pair(*i, *j),
            [3, _, _, ..] => Offered,
            _ => Nowhere,
        }
    }

    /// At the front of `words`, if it fits.
    pub fn write(self, words: &mut [u64]) {
        if let Some(front) = words.get_mut(..PLACE_WORDS) {
            front.copy_from_slice(&self.words());
        }
    }

    pub fn kind(self) -> &'static str {
        match self {
            Nowhere => "nowhere",
            Block(_) => "block",
            Pair(..) => "pair",
            Offered => "offered",
        }
    }

    /// Whether a call may name it beside the number.
    pub fn is_of(self, number: u64) -> bool {
        match self {
            Nowhere => true,
            Block(_) => [2, 4, 5, 7, 8, 9].contains(&number),
            Pair(..) => number == 6,
            Offered => [1, 2, 7, 8, 9].contains(&number),
        }
    }
}

/// The first of them that said no, beside the number of a call with this book; nowhere if the number is 0 or speaks of none.
pub fn of(book: &[u8], number: u32) -> Place {
    saying_no(book, number).first().copied().unwrap_or(Nowhere)
}

/// Of a preview with this number.
pub fn of_preview(book: &[u8], offered: &[u8], number: u32) -> Place {
    if open_book(book).is_err() {
        of(book, number)
    } else if preview::refused(book, offered) != 0 {
        Offered
    } else {
        Nowhere
    }
}

/// All blocks of a book that are answered no to the question of this number, which the book is refused with, or all pairs of solvents
/// with one CAS number; in their order.
pub fn saying_no(book: &[u8], number: u32) -> Vec<Place> {
    let blocks = || book.chunks(BLOCK).enumerate();
    match number {
        2 => {
            let version = if word(book, 0) == 1 { word(book, 1) } else { 1 };
            let wrong = blocks().filter(|(_, block)| word(block, 63) != check(block, version));
            wrong.map(|(k, _)| Block(k as u64)).collect()
        }
        4..=9 => {
            let head = Head { n: word(book, 2), wilson: word(book, MODEL) == WILSON };
            let solvents = blocks().map(|(k, block)| (k as u64, block)).skip(1).take(head.n as usize);
            if number == 6 {
                return equal_numbers(&solvents.map(|(_, block)| word(block, 2)).collect::<Vec<_>>());
            }
            let named = if number < 6 {
                solvents.filter(|(k, block)| solvent_says_no(number, block, k - 1)).map(|(k, _)| Block(k)).collect()
            } else {
                let pairs = blocks().map(|(k, block)| (k as u64, block)).skip(1 + head.n as usize).zip(head.pairs());
                let wrong = pairs.filter(|((_, block), pair)| pair_says_no(number, block, *pair, head.wilson));
                wrong.map(|((k, _), _)| Block(k)).collect()
            };
            named
        }
        _ => Vec::new(),
    }
}

struct Head {
    n: u64,
    wilson: bool,
}

impl Head {
    /// (0, 1), (0, 2) and on to (n − 2, n − 1).
    fn pairs(&self) -> impl Iterator<Item = (u64, u64)> {
        let n = self.n;
        let next = move |&(i, j): &(u64, u64)| if j + 1 < n { Some((i, j + 1)) } else { Some((i + 1, i + 2)) };
        std::iter::successors(Some((0, 1)), next).take_while(move |(_, j)| *j < n)
    }
}

/// In the order of the pair blocks.
fn equal_numbers(numbers: &[u64]) -> Vec<Place> {
    let behind = |i: usize| numbers.iter().enumerate().skip(i + 1).filter(move |(_, number)| **number == numbers[i]);
    (0..numbers.len()).flat_map(|i| behind(i).map(move |(j, _)| Pair(i as u64, j as u64))).collect()
}

/// 4 and 5.
fn solvent_says_no(number: u32, block: &[u8], i: u64) -> bool {
    let records = [VAPOR_PRESSURE, DENSITY];
    if number == 4 {
        let uncounted = |record: usize| word(block, record + 4).wrapping_sub(1) >= 8;
        word(block, 0) != 2 || word(block, 1) != i || word(block, 2) == 0 || records.into_iter().any(uncounted)
    } else {
        records.into_iter().any(|record| is_no_correlation(block, record))
    }
}

/// Positive floats stand in the order of their bits.
fn is_no_correlation(block: &[u8], record: usize) -> bool {
    let [t_r, reducing, low, high, terms] = [0, 1, 2, 3, 4].map(|at| word(block, record + at));
    let positive = |bits: &u64| is_finite(*bits) && *bits != 0 && bits >> 63 == 0;
    let infinite = |k: usize| !is_finite(word(block, record + 5 + k)) || !is_finite(word(block, record + 13 + k));
    ![t_r, reducing, low, high].iter().all(positive) || low > high || high >= t_r || (0..terms as usize).any(infinite)
}

/// 7, 8 and 9.
fn pair_says_no(number: u32, block: &[u8], (i, j): (u64, u64), wilson: bool) -> bool {
    let at = |k: usize| word(block, k);
    match number {
        7 => at(0) != 3 || at(1) != i || at(2) != j || at(15) > 1 || at(18) > 1,
        8 => {
            let parameters = 3..if wilson { 7 } else { 15 };
            let bounds = 16..if at(15) == 0 { 16 } else { 18 };
            parameters.chain(bounds).any(|k| !is_finite(at(k)))
        }
        _ => !wilson && !(equal(at(11), at(13)) && equal(at(12), at(14))),
    }
}
