//! Offered blocks of the previews.

use super::kinds::{model_is, Kinds};
use super::Tally;
use crate::sheet::anew::word;
use crate::sheet::blocks::BLOCK;
use crate::sheet::question::FRACTIONS;
use crate::sheet::{open_book, preview};
use crate::stage::Case;
use crate::with::With;

#[derive(Debug, Default)]
pub struct Pairs {
    books: Kinds,
    /// Numbers of blocks that were offered to books without fault; 0 where they were taken.
    offered: Tally,
    taken: Kinds,
}

impl Pairs {
    pub fn add(&mut self, case: &Case, refusal: u32) {
        let Case::With { with: With::Pair, book, question, lent, .. } = case else { return };
        let accepted = refusal == 0;
        if let Some(model) = model_is(book) {
            self.books.add(model, accepted);
        }
        if open_book(book).is_err() {
            return;
        }
        let number = preview::refused(book, lent);
        self.offered.add(number);
        if number == 0 {
            self.taken.add(pair_is(book, question, lent), accepted);
        }
    }

    pub fn print(&self) {
        self.books.print("previews by their books");
        let (all, taken) = (self.offered.all(), self.offered.accepted());
        println!("offered to right books: {all}, {taken} taken, refused {}", self.offered.refused());
        self.taken.print("pairs taken");
    }
}

fn pair_is(book: &[u8], question: &[u8], offered: &[u8]) -> &'static str {
    let absent = |at: usize| {
        let place = FRACTIONS + word(offered, at) as usize;
        question.len() == BLOCK && f64::from_bits(word(question, place)) == 0.0
    };
    match (preview::copy_with(book, offered) == book, absent(1) || absent(2)) {
        (true, _) => "the book's own",
        (_, true) => "with an absent solvent",
        _ => "of two kept solvents",
    }
}
