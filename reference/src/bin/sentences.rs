//! The core's sentences of every number with every place of a book, and of any numbers and places besides: each has at most 160 bytes of
//! printable ASCII and begins with its number's digits and then none; no two are equal, and none is the beginning of another.
//!
//! sentences [--count N] [--seed S]     N of any numbers and places

use std::process::ExitCode;

use reference::command::count_and_seed;
use reference::generate::sentences::count;
use reference::generate::Rng;
use reference::rattle;
use reference::sheet::place::Place::{self, Block, Nowhere, Offered, Pair};
use reference::sheet::sentence::{LAST_NUMBER, SENTENCE_ROOM};

/// Findings that are printed.
const SHOWN: usize = 10;
const NOISE: u8 = 0xee;

fn main() -> ExitCode {
    let Some((count, seed)) = count_and_seed(1_000_000) else {
        eprintln!("usage: sentences [--count N] [--seed S]");
        return ExitCode::from(2);
    };
    let mut found = Findings::default();
    let small: Vec<(u64, Place)> =
        (1..=LAST_NUMBER).flat_map(|number| places().map(move |place| (number, place))).collect();
    let (able, unable): (Vec<_>, Vec<_>) = small.into_iter().partition(|(number, place)| place.is_of(*number));
    for (number, place) in &unable {
        let left_out = composed(*number, *place) == composed(*number, Nowhere);
        found.need(left_out, || format!("{number} names {place:?}, which it can't have"));
    }
    let mut rng = Rng::new(seed ^ 0x7365_6e74_656e_6365);
    let mut refusals: Vec<_> = able.iter().copied().chain((0..count).map(|_| any(&mut rng))).collect();
    refusals.sort_unstable();
    refusals.dedup();
    let mut sentences: Vec<(Vec<u8>, (u64, Place))> =
        refusals.iter().map(|(number, place)| (composed(*number, *place), (*number, *place))).collect();
    for (sentence, (number, place)) in &sentences {
        found.need(is_right(sentence, *number), || format!("{number}, {place:?}: {}", text(sentence)));
    }
    // What begins with one stands right behind it.
    sentences.sort_unstable();
    for pair in sentences.windows(2) {
        let [(one, of_one), (next, of_next)] = pair else { unreachable!("windows of two") };
        found.need(!next.starts_with(one), || {
            format!("{of_one:?} and {of_next:?}: {} begins {}", text(one), text(next))
        });
    }
    let lengths = sentences.iter().map(|(sentence, _)| sentence.len());
    println!(
        "sentences: {} of {} to {} bytes ({} of a book's places), {} with a place left out, {} findings",
        sentences.len(),
        lengths.clone().min().unwrap_or(0),
        lengths.max().unwrap_or(0),
        able.len(),
        unable.len(),
        found.count
    );
    if found.count == 0 {
        ExitCode::SUCCESS
    } else {
        ExitCode::FAILURE
    }
}

#[derive(Default)]
struct Findings {
    count: usize,
}

impl Findings {
    fn need(&mut self, holds: bool, what: impl FnOnce() -> String) {
        if !holds {
            self.count += 1;
            if self.count <= SHOWN {
                println!("finding: {}", what());
            }
        }
    }
}

/// None, blocks 0 to 40, all pairs of eight solvents, the offered block.
fn places() -> impl Iterator<Item = Place> {
    let pairs = (0..8).flat_map(|i| (i + 1..8).map(move |j| Pair(i, j)));
    [Nowhere, Offered].into_iter().chain((0..=40).map(Block)).chain(pairs)
}

/// A number, and a place that it can have, of any count of digits.
fn any(rng: &mut Rng) -> (u64, Place) {
    let [a, b] = [(); 2].map(|_| {
        let shift = rng.below(64);
        if rng.one_in(4) {
            count(rng)
        } else {
            rng.bits() >> shift
        }
    });
    let number = rng.pick(&[2, 4, 5, 6, 6, 7, 8, 9]);
    (number, if number == 6 { Pair(a, b) } else { Block(a) })
}

/// The core's, behind which all bytes stay.
fn composed(number: u64, place: Place) -> Vec<u8> {
    let (mut text, mut length) = ([NOISE; SENTENCE_ROOM + 40], u64::MAX);
    let refusal =
        rattle::sentence(number, &place.words(), &mut text, &mut length).expect("the program is built with it");
    assert_eq!(refusal, 0, "{number} {place:?}");
    let (sentence, behind) = text.split_at(usize::try_from(length).map_or(text.len(), |length| length.min(text.len())));
    assert!(behind.iter().all(|byte| *byte == NOISE), "bytes behind a sentence of {number} {place:?}");
    sentence.to_vec()
}

fn is_right(sentence: &[u8], number: u64) -> bool {
    let digits = number.to_string();
    sentence.len() <= SENTENCE_ROOM
        && sentence.iter().all(|byte| (b' '..=b'~').contains(byte))
        && sentence.strip_prefix(digits.as_bytes()).is_some_and(|rest| !rest.first().is_some_and(u8::is_ascii_digit))
}

fn text(sentence: &[u8]) -> String {
    String::from_utf8_lossy(sentence).into_owned()
}
