//! Calls with a place beside their number: by call, by number and place, and by where in the book it is.

use std::collections::BTreeMap;

use super::kinds::{model_is, Kinds};
use crate::placed::{call_of, place_of, CALLS};
use crate::sheet::blocks::BLOCK;
use crate::sheet::book::due_pairs;
use crate::sheet::place::Place::{self, Block, Nowhere, Offered, Pair};
use crate::sheet::place::{saying_no, PLACE_WORDS};
use crate::stage::{Case, Found};

/// Blocks of the largest book.
const BLOCKS: usize = 37;
/// Of a book, or of an offered block.
const OF_BOOKS: [u32; 12] = [1, 2, 3, 4, 5, 6, 7, 8, 9, 35, 37, 38];

#[derive(Debug, Default)]
pub struct Places {
    all: Kinds,
    rooms: Kinds,
    /// Whose book, or offered block, is refused.
    calls: Kinds,
    models: Kinds,
    by_number: BTreeMap<(u32, &'static str), usize>,
    /// Lowest, highest, between, or the only one that the number is put to.
    ends: BTreeMap<(u32, &'static str), usize>,
    blocks: BTreeMap<u64, usize>,
    pairs: BTreeMap<(u64, u64), usize>,
    /// Where other blocks, or pairs, say no to the same.
    several: BTreeMap<u32, usize>,
    /// Where the first by the later solvent is another pair.
    later_first: usize,
    of_books: usize,
    offered: usize,
}

impl Places {
    pub fn add(&mut self, case: &Case, found: &Found) {
        let (Case::Placed { asked, room }, Some((book, _))) = (case, case.sheet()) else { return };
        let (number, call) = (found.refusal, CALLS[call_of(asked)]);
        let place = place_of(asked, number);
        let refused = OF_BOOKS.contains(&number);
        self.all.add(call, number == 0);
        self.rooms.add(["0", "1", "2", "3", "4", "5", "6"][*room], *room >= PLACE_WORDS);
        *self.by_number.entry((number, place.kind())).or_default() += 1;
        if !refused {
            return;
        }
        self.calls.add(call, place != Nowhere);
        if place == Offered {
            self.offered += 1;
            return;
        }
        self.of_books += 1;
        if let Some(model) = model_is(book) {
            self.models.add(model, place != Nowhere);
        }
        self.add_place(book, number, place);
    }

    fn add_place(&mut self, book: &[u8], number: u32, place: Place) {
        match place {
            Block(k) => {
                *self.ends.entry((number, end(number, k, book))).or_default() += 1;
                *self.blocks.entry(k).or_default() += 1;
            }
            Pair(i, j) => *self.pairs.entry((i, j)).or_default() += 1,
            Nowhere | Offered => return,
        }
        let all = saying_no(book, number);
        *self.several.entry(number).or_default() += usize::from(all.len() > 1);
        let later = all.iter().min_by_key(|place| if let Pair(i, j) = place { (*j, *i) } else { (0, 0) });
        self.later_first += usize::from(number == 6 && later != Some(&place));
    }

    pub fn print(&self) {
        self.all.print("calls with a place");
        self.rooms.print_as("by the words of the place", "written");
        self.calls.print_as("whose book or offered block is refused, by call", "with a place");
        self.models.print_as("refused books by their models", "with a place");
        let numbers: Vec<_> =
            self.by_number.iter().map(|((number, kind), count)| format!("{number} {kind}: {count}")).collect();
        println!("by number and place: {}", numbers.join(", "));
        let ends: Vec<_> = self.ends.iter().map(|((number, end), count)| format!("{number} {end}: {count}")).collect();
        println!("blocks that said no: {}", ends.join(", "));
        let count = |k: u64| self.blocks.get(&k).copied().unwrap_or(0);
        let beyond: usize = self.blocks.range(BLOCKS as u64..).map(|(_, count)| count).sum();
        println!(
            "each of blocks 0 to 36 at least {} times (0: {}, 18: {}, 35: {}, 36: {}), beyond: {beyond}, the farthest {}",
            (0..BLOCKS as u64).map(count).min().unwrap_or(0),
            count(0),
            count(18),
            count(35),
            count(36),
            self.blocks.keys().last().unwrap_or(&0)
        );
        let pair = |(i, j): (usize, usize)| self.pairs.get(&(i as u64, j as u64)).copied().unwrap_or(0);
        println!(
            "each of the 28 pairs at least {} times; another by the later solvent: {}",
            due_pairs(8).into_iter().map(pair).min().unwrap_or(0),
            self.later_first
        );
        let several: Vec<_> = self.several.iter().map(|(number, count)| format!("{number}: {count}")).collect();
        println!("with others that say no to the same: {}", several.join(", "));
        println!("refused: {} books, {} offered blocks", self.of_books, self.offered);
    }
}

/// Among the blocks that the number is put to.
fn end(number: u32, k: u64, book: &[u8]) -> &'static str {
    let last = (book.len() / BLOCK) as u64 - 1;
    let n = (1..=8).find(|n| n * (n + 1) / 2 == last).unwrap_or(0);
    let (low, high) = match number {
        2 => (0, last),
        4 | 5 => (1, n),
        _ => (1 + n, last),
    };
    match (k == low, k == high) {
        (true, true) => "only",
        (true, false) => "lowest",
        (false, true) => "highest",
        (false, false) => "middle",
    }
}
