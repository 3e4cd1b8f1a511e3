//! A refusal in words, plain Rust. What each number is about is read from the core's definition, so that it isn't written twice.

use std::sync::LazyLock;

use super::place::Place;

/// Bytes that are always enough.
pub const SENTENCE_ROOM: usize = 160;
/// Numbers of refusals are 1 to this.
pub const LAST_NUMBER: u64 = 39;

const DEFINITION: &str = include_str!("../../../crates/sentences/specs/Sentence.antt");

/// The lines of the list `matters` from 1 on.
static MATTERS: LazyLock<Vec<&str>> = LazyLock::new(|| {
    let list = DEFINITION.lines().skip_while(|line| *line != "matters =").take_while(|line| !line.is_empty());
    list.filter_map(|line| line.trim().strip_prefix("∷ codes \"")?.strip_suffix('"')).collect()
});

/// What each of the numbers 1 to 39 is about.
pub fn matter(number: u64) -> &'static str {
    MATTERS[number as usize - 1]
}

/// Of a number from 1 to 39; a place that it can't have is left out.
pub fn sentence(number: u64, place: Place) -> String {
    let place = match place {
        _ if !place.is_of(number) => String::new(),
        Place::Nowhere => String::new(),
        Place::Block(k) => format!(" (block {k})"),
        Place::Pair(i, j) => format!(" (solvents {i} and {j})"),
        Place::Offered => " (the offered block)".into(),
    };
    format!("{number}: {}{place}.", matter(number))
}

/// 0, the sentence at the front of `text` and its length; or 1, then 10 where fewer than 160 bytes are lent, and both untouched.
pub fn write(number: u64, place: &[u64], text: &mut [u8], length: &mut u64) -> u32 {
    if !(1..=LAST_NUMBER).contains(&number) {
        return 1;
    }
    if text.len() < SENTENCE_ROOM {
        return 10;
    }
    let sentence = sentence(number, Place::of(place));
    text[..sentence.len()].copy_from_slice(sentence.as_bytes());
    *length = sentence.len() as u64;
    0
}
