//! Trying a pair, plain Rust: the plain call on a copy of the book that holds the offered block in place of its own.

use super::anew::{equal, is_finite, is_right_block, version, word};
use super::blocks::BLOCK;
use super::book::{MODEL, WILSON};
use super::open_book;

/// The book's numbers, then the offered block's, then the plain call's on the copy.
pub fn answer(book: &[u8], offered: &[u8], question: &[u8], answer: &mut [u8]) -> u32 {
    if let Err(number) = open_book(book) {
        return number;
    }
    match refused(book, offered) {
        0 => super::answer(&copy_with(book, offered), question, answer),
        number => number,
    }
}

/// 1, 2, 7, 8 or 9 of a block that is offered to a book that passes its own; 0 where it is taken.
pub fn refused(book: &[u8], offered: &[u8]) -> u32 {
    if offered.len() != BLOCK {
        return 1;
    }
    if !is_right_block(offered, version(book)) {
        return 2;
    }
    let [kind, i, j, flag, inferred] = [0, 1, 2, 15, 18].map(|at| word(offered, at));
    if kind != 3 || i >= j || j >= word(book, 2) || flag > 1 || inferred > 1 {
        return 7;
    }
    let wilson = word(book, MODEL) == WILSON;
    let parameters = if wilson { 3..7 } else { 3..15 };
    let bounds = if flag == 1 { 16..18 } else { 0..0 };
    if !parameters.chain(bounds).all(|at| is_finite(word(offered, at))) {
        return 8;
    }
    let alphas = [(11, 13), (12, 14)];
    if !wilson && !alphas.iter().all(|(ij, ji)| equal(word(offered, *ij), word(offered, *ji))) {
        return 9;
    }
    0
}

/// A block that is taken stands in place of the pair with the same i and j.
pub fn copy_with(book: &[u8], offered: &[u8]) -> Vec<u8> {
    let [n, i, j] = [word(book, 2), word(offered, 1), word(offered, 2)].map(|word| word as usize);
    // n − 1 pairs begin with 0, n − 2 with 1, and on.
    let before = i * (2 * n - i - 1) / 2 + (j - i - 1);
    let from = BLOCK * (1 + n + before);
    [&book[..from], offered, &book[from + BLOCK..]].concat()
}
