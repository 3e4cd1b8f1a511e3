//! Calls that give the place beside the number.

use crate::rattle;
use crate::sheet::anew::word;
use crate::sheet::place::{self, Place};
use crate::stage::Case;
use crate::with::With;

/// The six calls, in the order of the stored lines.
pub const CALLS: [&str; 6] = ["answer", "pooled", "feeds", "preview", "queue", "distance"];

/// Which of them a case is.
pub fn call_of(asked: &Case) -> usize {
    CALLS.iter().position(|name| *name == asked.name()).expect("one of the six calls")
}

/// Of a call that came to this number.
pub fn place_of(asked: &Case, number: u32) -> Place {
    match asked {
        Case::With { with: With::Pair, book, lent, .. } => place::of_preview(book, lent, number),
        Case::Sheet { book, .. } | Case::With { book, .. } | Case::Distance { book, .. } => place::of(book, number),
        _ => unreachable!("one of the six calls"),
    }
}

/// The core's call; `None` where the stage is not built in.
pub fn core(with: Option<With>, read: [&[u8]; 3], answer: &mut [u8], place: &mut [u64]) -> Option<u64> {
    let [book, question, lent] = read;
    match with {
        None => rattle::answer_placed(book, question, answer, place),
        Some(With::Drums) => rattle::pooled_placed(book, question, lent, answer, place),
        Some(With::Feeds) => rattle::feeds_placed(book, question, lent, answer, place),
        Some(With::Pair) => rattle::preview_placed(book, lent, question, answer, place),
        Some(With::Allowance) => rattle::queue_placed(book, question, word(lent, 0), answer, place),
    }
}
