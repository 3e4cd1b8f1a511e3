//! Numbers and places for the sentences: all small ones, those at powers of ten and two, and any; slices with too few bytes.

use super::Rng;
use crate::sheet::sentence::{LAST_NUMBER, SENTENCE_ROOM};
use crate::stage::Case;

/// Bytes that are lent.
pub const ROOMS: [usize; 9] = [0, 1, SENTENCE_ROOM - 1, SENTENCE_ROOM, SENTENCE_ROOM + 1, 168, 200, 512, 4096];
/// Numbers of no refusal.
const NO_NUMBERS: [u64; 6] = [0, 40, 41, 1 << 32 | 1, 1 << 63, u64::MAX];
/// Kinds of no place.
const NO_KINDS: [u64; 5] = [0, 4, 5, 1 << 32 | 1, u64::MAX];

/// Digits change their count here.
fn tens() -> impl Iterator<Item = u64> {
    (1..20).flat_map(|k| [10u64.pow(k) - 1, 10u64.pow(k)])
}

/// Each number with each kind of place and with short ones; compared before any others.
pub fn borders() -> Vec<Case> {
    let mut places: Vec<Vec<u64>> = vec![vec![], vec![1], vec![2, 0], vec![1, 3], vec![3, 0, 0], vec![3, 8, 9, 1]];
    places.extend(NO_KINDS.map(|kind| vec![kind, 0, 1]));
    places.extend((0..=40).chain(tens()).chain([1 << 63, u64::MAX]).map(|k| vec![1, k, 0]));
    places.extend((0..8).flat_map(|i| (0..8).map(move |j| vec![2, i, j])));
    places
        .extend([[2, u64::MAX, 0], [2, 0, u64::MAX], [2, u64::MAX, u64::MAX], [1, u64::MAX, u64::MAX]].map(Vec::from));
    places.extend([[2, 7, 8], [1, 5, 9]].map(|words| [&words[..], &[7, 7]].concat()));
    let numbers = (0..=LAST_NUMBER).chain(NO_NUMBERS);
    let mut all: Vec<Case> = numbers
        .flat_map(|number| places.iter().map(move |place| (number, place.clone())))
        .map(|(number, place)| Case::Sentence { number, place, room: SENTENCE_ROOM })
        .collect();
    // 1 stands before 10.
    for number in [0, 1, 5, 6, 39, 40] {
        for room in (0..=SENTENCE_ROOM + 40).chain(ROOMS) {
            all.push(Case::Sentence { number, place: vec![1 + u64::from(number == 6), 3, 7], room });
        }
    }
    all
}

/// With three words of a place alone, for stored samples.
pub fn draw(rng: &mut Rng, compact: bool) -> Case {
    let number = match rng.below(16) {
        0 => rng.pick(&NO_NUMBERS),
        1 => rng.bits(),
        2..=5 => rng.between(1, LAST_NUMBER as usize) as u64,
        _ => rng.pick(&[1, 2, 2, 4, 5, 6, 6, 6, 7, 8, 9]),
    };
    let kind = match rng.below(8) {
        0 => rng.pick(&NO_KINDS),
        1 => 3,
        // That which the number can have, mostly.
        _ if number == 6 || rng.one_in(8) => 2,
        _ => 1,
    };
    let mut place = vec![kind, count(rng), count(rng)];
    match rng.below(12) {
        _ if compact => {}
        0 => place.truncate(rng.below(3)),
        1 => place.extend([rng.bits(), rng.bits()]),
        _ => {}
    }
    let room = match rng.below(8) {
        0 => rng.pick(&ROOMS),
        1 => rng.between(0, 2 * SENTENCE_ROOM),
        _ => SENTENCE_ROOM,
    };
    Case::Sentence { number, place, room }
}

/// A block or a solvent, or anything.
pub fn count(rng: &mut Rng) -> u64 {
    match rng.below(8) {
        0..=2 => rng.below(8) as u64,
        3 | 4 => rng.below(200) as u64,
        5 => {
            let beside = rng.below(3) as u64;
            (10u64.pow(rng.below(20) as u32) + beside).wrapping_sub(1)
        }
        6 => rng.bits() >> rng.below(64),
        _ => rng.bits(),
    }
}
