//! Drums and totals of the sheets with drums.

use super::kinds::{how_many, model_is, Kinds};
use crate::sheet::blocks::{words_of, BLOCK};
use crate::sheet::pool::{drums_of, total, DRUM, MOST, MOST_DRUMS};
use crate::stage::Case;
use crate::with::With;

#[derive(Debug, Default)]
pub struct Drums {
    drums: Kinds,
    totals: Kinds,
    books: Kinds,
}

impl Drums {
    pub fn add(&mut self, case: &Case, refusal: u32) {
        let Case::With { with: With::Drums, book, lent: drums, .. } = case else { return };
        let accepted = refusal == 0;
        self.drums.add(how_many(drums.len()), accepted);
        if let Some(model) = model_is(book) {
            self.books.add(model, accepted);
        }
        let n = book.get(..BLOCK).map_or(0, |head| words_of(head)[2].min(8) as usize);
        for what in totals_are(drums, n) {
            self.totals.add(what, accepted);
        }
    }

    pub fn print(&self) {
        self.drums.print("drums");
        self.totals.print("totals");
        self.books.print("books");
    }
}

/// What is told of 1 to 64 whole drums, by their first n counts.
fn totals_are(drums: &[u8], n: usize) -> Vec<&'static str> {
    let mut all = Vec::new();
    if !drums.len().is_multiple_of(DRUM) || !(1..=MOST_DRUMS).contains(&(drums.len() / DRUM)) {
        return all;
    }
    let total = total(drums, n);
    let wrapped = total > u128::from(u64::MAX);
    match total {
        0 => all.push("0"),
        1 => all.push("1"),
        MOST => all.push("2^53"),
        _ if total == MOST + 1 => all.push("2^53 + 1"),
        _ if wrapped && (1..=MOST).contains(&u128::from(total as u64)) => all.push("wraps to 1 to 2^53"),
        _ if wrapped => all.push("wraps to another"),
        _ if total > MOST => all.push("above 2^53 + 1"),
        _ => all.push("between"),
    }
    if drums_of(drums).any(|drum| drum[..n].contains(&u64::MAX)) {
        all.push("with a count of 2^64 - 1");
    }
    if drums_of(drums).any(|drum| drum[n..].iter().any(|count| *count != 0)) {
        all.push("with counts past n");
    }
    all
}
