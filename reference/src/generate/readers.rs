//! Answer slices for the readers: what calls of every task wrote, whole, cut and damaged; and blocks that no call writes.

use super::cases::{sheets, Cases};
use super::Rng;
use crate::sheet::blocks::{bytes_of, seal, words_of, Rule, Words, BLOCK};
use crate::sheet::readers::{FLOOR_WORDS, MOST_TRIALS};
use crate::sheet::reply::{OUTCOME, TRIALS};
use crate::sheet::{program_output, ANSWER_BYTES};
use crate::stage::{parts, Case, Stage};

/// Slices that are made of what one call wrote.
const OF_ONE: usize = 12;

/// Slices in the order of a seed.
pub struct Slices {
    rng: Rng,
    sheets: Box<dyn Iterator<Item = (Vec<u8>, Vec<u8>)>>,
    /// Calls with many feeds, and queues.
    many: [Box<Cases>; 2],
    /// What was written, the last call's last.
    written: Vec<Vec<u8>>,
    left: usize,
}

impl Slices {
    pub fn new(seed: u64, compact: bool) -> Self {
        Self {
            rng: Rng::new(seed ^ 0x666c_6f6f_7273),
            sheets: Box::new(sheets(seed)),
            many: [Stage::Feeds, Stage::Queue].map(|stage| Box::new(Cases::new(stage, seed, compact))),
            written: Vec::new(),
            left: 0,
        }
    }

    pub fn draw(&mut self) -> Case {
        if self.left == 0 {
            self.written.pop();
            if self.written.is_empty() {
                self.written = if self.rng.one_in(16) { self.of_many() } else { vec![self.of_sheet()] };
            }
            self.left = OF_ONE;
        }
        self.left -= 1;
        let written = self.written.last().expect("one was drawn");
        let slice = slice(&mut self.rng, written);
        let room = match self.rng.below(8) {
            0 => self.rng.pick(&[0, 1, 5, 6, FLOOR_WORDS - 1]),
            1 => self.rng.pick(&[FLOOR_WORDS + 1, 30, 64]),
            _ => FLOOR_WORDS,
        };
        Case::Readers { slice, room }
    }

    /// An answer's blocks or a refusal's.
    fn of_sheet(&mut self) -> Vec<u8> {
        let (book, question) = self.sheets.next().expect("sheets have no end");
        program_output(&book, &question)
    }

    /// The parts of an accepted call, each with its blocks in front and what stood behind them.
    fn of_many(&mut self) -> Vec<Vec<u8>> {
        let which = self.rng.below(2);
        loop {
            let case = self.many[which].draw().1;
            let Case::With { with, ref question, ref lent, .. } = case else { unreachable!("feeds or a queue") };
            let found = case.expected();
            if found.refusal == 0 {
                let bytes = |part: &[u64]| part.iter().flat_map(|word| word.to_le_bytes()).collect();
                // A few of them: the others are like these.
                return parts(&found.words, with.parts(question, lent).min(8)).map(bytes).collect();
            }
        }
    }
}

/// As it was written, with anything behind, cut, or with one thing or two changed; or made anew.
fn slice(rng: &mut Rng, written: &[u8]) -> Vec<u8> {
    let mut bytes = match rng.below(16) {
        0 => return noise(rng, ANSWER_BYTES + 2 * BLOCK),
        1 | 2 => made(rng),
        _ => written.to_vec(),
    };
    match rng.below(16) {
        0..=3 => {}
        4 | 5 => {
            let behind = noise(rng, ANSWER_BYTES);
            bytes.extend(behind);
        }
        6 => bytes.resize(rng.between(bytes.len(), 2 * ANSWER_BYTES), 0),
        // The next answer.
        7 => bytes.extend(written),
        8 | 9 => cut(rng, &mut bytes),
        _ => {
            change(rng, &mut bytes);
            if rng.one_in(4) {
                change(rng, &mut bytes);
            }
        }
    }
    bytes
}

fn noise(rng: &mut Rng, most: usize) -> Vec<u8> {
    (0..rng.below(most + 1)).map(|_| rng.bits() as u8).collect()
}

/// Anywhere, or at the end of a block or beside it.
fn cut(rng: &mut Rng, bytes: &mut Vec<u8>) {
    let length = if rng.one_in(2) {
        rng.below(bytes.len() + 1)
    } else {
        let end = BLOCK * rng.below(bytes.len() / BLOCK + 1);
        rng.pick(&[end.saturating_sub(1), end, end + 1])
    };
    bytes.truncate(length);
}

/// 0 to 10 blocks of kind 10 behind one of kind 9 which says how many, all else noise; at times what a queue puts off.
fn made(rng: &mut Rng) -> Vec<u8> {
    if rng.one_in(8) {
        let mut words = [0; 64];
        (words[0], words[1], words[OUTCOME]) = (9, 7, 4);
        seal(&mut words, rng.pick(&[Rule::Plain, Rule::Running]));
        return bytes_of(&words).to_vec();
    }
    let mut block = |kind: u64| {
        let mut words: Words = std::array::from_fn(|_| rng.bits());
        words[0] = kind;
        words
    };
    let mut blocks = vec![block(9)];
    blocks.extend([(); MOST_TRIALS + 2].map(|_| block(10)));
    let trials = rng.below(MOST_TRIALS + 3);
    blocks[0][1] = rng.between(0, 10) as u64;
    blocks[0][TRIALS] = trials as u64;
    blocks[..=trials].iter().flat_map(bytes_of).collect()
}

/// A word 0, 1, 12, 63 or any other, of the answer's block or of a trial's.
fn change(rng: &mut Rng, bytes: &mut [u8]) {
    let count = bytes.len() / BLOCK;
    if count == 0 {
        return;
    }
    let at = |block: usize, word: usize| BLOCK * block + 8 * word;
    let trials = words_of(&bytes[..BLOCK])[TRIALS];
    let kind = |kind: u64| [0, 1, 8, 9, 10, 11, kind << 8, kind | 1 << 32, kind | 1 << 63, u64::MAX];
    let (place, word) = match rng.below(10) {
        0 | 1 => {
            let beside = rng.pick(&[trials.wrapping_sub(1), trials.wrapping_add(1), 1 << 32 | trials]);
            (at(0, TRIALS), rng.pick(&[0, 1, 7, 8, 9, 9, 10, 1 << 63, u64::MAX, u64::MAX, beside, beside]))
        }
        2 => (at(0, 0), rng.pick(&kind(9))),
        3 | 4 => (at(rng.below(count.min(1 + MOST_TRIALS)), 0), rng.pick(&kind(10))),
        5 => (at(0, 1), rng.pick(&[0, 1, 1, 2, 7, 10, 1 << 32 | 1, u64::MAX])),
        6 => (at(rng.below(count), 63), rng.bits()),
        _ => (at(rng.below(count), rng.between(2, 62)), rng.bits()),
    };
    bytes[place..place + 8].copy_from_slice(&word.to_le_bytes());
}

/// Slices at the borders of 1 and 10, with their numbers; compared before any others.
pub fn borders() -> Vec<(Case, u32)> {
    let mut all = Vec::new();
    for trials in 0..=MOST_TRIALS {
        let right = numbered(9, trials as u64, trials);
        all.push((right.clone(), FLOOR_WORDS, 0));
        // One trial more, and one too few; the last byte too few.
        all.push((numbered(9, trials as u64, trials + 1), FLOOR_WORDS, 0));
        if trials > 0 {
            all.push((numbered(9, trials as u64, trials - 1), FLOOR_WORDS, 1));
        }
        all.push((right[..right.len() - 1].to_vec(), FLOOR_WORDS, 1));
        for block in 1..=trials {
            for kind in [0, 9, 11, 1 << 32 | 10] {
                let mut other = right.clone();
                other[BLOCK * block..BLOCK * block + 8].copy_from_slice(&u64::to_le_bytes(kind));
                all.push((other, FLOOR_WORDS, 1));
            }
        }
        all.extend((0..=FLOOR_WORDS + 1).map(|room| (right.clone(), room, if room < FLOOR_WORDS { 10 } else { 0 })));
    }
    for kind in [0, 1, 8, 10, 9 << 8, 1 << 32 | 9, u64::MAX] {
        all.push((numbered(kind, 0, 0), FLOOR_WORDS, 1));
    }
    for count in [9, 10, 1 << 32, 1 << 63, u64::MAX] {
        all.push((numbered(9, count, 10), FLOOR_WORDS, 1));
        // 1 stands before 10.
        all.push((numbered(9, count, 10), 0, 1));
    }
    for length in [0, 1, 8, 104, 511] {
        all.push((numbered(9, 0, 0)[..length].to_vec(), FLOOR_WORDS, 1));
    }
    for task in 0..=10 {
        let mut slice = numbered(9, 0, 0);
        slice[8..16].copy_from_slice(&u64::to_le_bytes(task));
        all.push((slice, FLOOR_WORDS, 0));
    }
    all.into_iter().map(|(slice, room, number)| (Case::Readers { slice, room }, number)).collect()
}

/// A block of that kind and that word 12, and so many of kind 10; every other word has its own value.
fn numbered(kind: u64, count: u64, trials: usize) -> Vec<u8> {
    let block = |block: usize| -> Words { std::array::from_fn(|k| 1000 * (block as u64 + 2) + k as u64) };
    let mut blocks: Vec<Words> = (0..=trials).map(block).collect();
    blocks.iter_mut().for_each(|words| words[0] = 10);
    blocks[0][0] = kind;
    blocks[0][1] = 7;
    blocks[0][TRIALS] = count;
    blocks.iter().flat_map(bytes_of).collect()
}
