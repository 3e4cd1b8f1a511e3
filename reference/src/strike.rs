//! Striking run on sheets: absent solvents struck from book and question leave an accepted answer as it was (docs/FORMAT.md, "The
//! shorter sheet"). The premise of tasks 4 and 5 holds of every accepted sheet: `excess` refuses a slope of ln γ that is not finite.

use crate::generate::small::{bytes, sealed_by, Ask};
use crate::generate::Rng;
use crate::sheet::anew::word;
use crate::sheet::blocks::{rule_of, words_of, Words, BLOCK};
use crate::sheet::book::due_pairs;
use crate::sheet::distance::{self, Way, RESULT_WORDS};
use crate::sheet::feeds::{bytes_of_feeds, FEED};
use crate::sheet::question::{BASIS, BY_MASS, FRACTIONS, K_VALUES};
use crate::sheet::queue::{most_of, Due};
use crate::sheet::reply::{EVALUATIONS, LIQUID, REFUSAL, TRIALS, VAPOR};
use crate::sheet::ANSWER_BYTES;
use crate::stage::bytes_as_words;

pub const TASKS: [u64; 9] = [1, 2, 3, 4, 5, 6, 7, 8, 9];

/// A trial's component and fractions.
const COMPONENT: usize = 1;
const TRIAL: usize = 5;

/// Book, question and answer slice to the number.
pub type Call = fn(&[u8], &[u8], &mut [u8]) -> u64;

pub fn reference(book: &[u8], question: &[u8], answer: &mut [u8]) -> u64 {
    crate::sheet::answer(book, question, answer).into()
}

pub fn core(book: &[u8], question: &[u8], answer: &mut [u8]) -> u64 {
    crate::rattle::answer(book, question, answer).expect("built with the sheet")
}

/// The core's call with many feeds: the question's own is the second of three, and its part is the answer. A refusal block counts as
/// its number, and as unwritten.
pub fn core_feeds(book: &[u8], question: &[u8], answer: &mut [u8]) -> u64 {
    let own = &question[8 * FRACTIONS..8 * FRACTIONS + FEED];
    // The first is refused; the third has all solvents.
    let n = word(book, 2) as usize;
    let equal = [1.0 / n as f64; 8];
    let feeds = [&bytes_of_feeds(&[[f64::NAN; 8]]), own, &bytes_of_feeds(&[equal])].concat();
    let mut answers = [&[0; ANSWER_BYTES], &*answer, &[0; ANSWER_BYTES]].concat();
    let number = crate::rattle::feeds(book, question, &feeds, &mut answers).expect("built with the feeds");
    if number != 0 {
        return number;
    }
    assert_eq!(word(&answers, REFUSAL), 15, "a feed of NaN");
    let part = &answers[ANSWER_BYTES..];
    let refusal = word(part, REFUSAL);
    if refusal == 0 {
        answer[..ANSWER_BYTES].copy_from_slice(&part[..ANSWER_BYTES]);
    }
    refusal
}

/// The core's preview of one of the book's pairs, offered to a book with another there; the plain call where there is no pair.
pub fn core_preview(book: &[u8], question: &[u8], answer: &mut [u8]) -> u64 {
    let n = word(book, 2) as usize;
    let pairs = due_pairs(n).len();
    if pairs == 0 {
        return core(book, question, answer);
    }
    let block = |k: usize| BLOCK * (1 + n + k)..BLOCK * (2 + n + k);
    // By the question's check, which is as good as any.
    let k = (word(question, 63) % pairs as u64) as usize;
    let (offered, mut words) = (&book[block(k)], words_of(&book[block((k + 1) % pairs)]));
    words[1..3].copy_from_slice(&words_of(offered)[1..3]);
    let mut other = book.to_vec();
    other[block(k)].copy_from_slice(&sealed_by(rule_of(book), words));
    crate::rattle::preview(&other, offered, question, answer).expect("built with the preview")
}

/// The core's queue: the question stands between one that is refused first and itself once more, with an allowance of just what it asks
/// for, so that the last is put off. A refusal block counts as its number, and as unwritten.
pub fn core_queue(book: &[u8], question: &[u8], answer: &mut [u8]) -> u64 {
    let cold = sealed_by(rule_of(book), Ask(words_of(question)).at(0.0).0);
    let queue = [&cold, question, question].concat();
    let mut answers = [&[0; ANSWER_BYTES], &*answer, &[0; ANSWER_BYTES]].concat();
    let allowance = most_of(book, question);
    let number = crate::rattle::queue(book, &queue, allowance, &mut answers).expect("built with the queue");
    if number != 0 {
        return number;
    }
    let after = bytes_as_words(&answers);
    assert_eq!(after[REFUSAL], 13, "a temperature of 0 K");
    let [own, again] = [1, 2].map(|k| ANSWER_BYTES / 8 * k);
    let refusal = after[own + REFUSAL];
    if refusal == 0 {
        assert_eq!(Due::of(&after[again..]), Due::PutOff, "something was taken");
        answer[..ANSWER_BYTES].copy_from_slice(&answers[ANSWER_BYTES..2 * ANSWER_BYTES]);
    }
    refusal
}

#[derive(Debug, Clone)]
pub struct Sheet {
    pub book: Vec<u8>,
    pub question: Vec<u8>,
}

impl Sheet {
    pub fn by_mass(&self) -> bool {
        words_of(&self.question)[BASIS] == BY_MASS
    }

    /// The fractions, of moles or of mass, of a sheet that is accepted.
    pub fn feed(&self) -> Vec<f64> {
        let n = words_of(&self.book[..BLOCK])[2] as usize;
        words_of(&self.question)[FRACTIONS..FRACTIONS + n].iter().map(|word| f64::from_bits(*word)).collect()
    }

    /// The solvents that are not absent.
    pub fn kept(&self) -> Vec<usize> {
        let feed = self.feed();
        (0..feed.len()).filter(|i| feed[*i] != 0.0).collect()
    }

    /// Absent solvents struck; anything in the places behind the kept ones.
    pub fn shorter(&self, rng: &mut Rng, kept: &[usize]) -> Self {
        let book: Vec<Words> = self.book.chunks_exact(BLOCK).map(words_of).collect();
        let question = shorter_question(rng, &words_of(&self.question), kept);
        Self { book: bytes(&shorter_book(&book, kept)), question: sealed_by(rule_of(&self.book), question) }
    }

    /// The blocks written, or the number. Whatever else stood in the slice has to be there still.
    pub fn blocks(&self, rng: &mut Rng, call: Call, room: usize) -> Result<Vec<Words>, u64> {
        let before: Vec<u8> = (0..room.div_ceil(8)).flat_map(|_| rng.bits().to_le_bytes()).take(room).collect();
        let mut after = before.clone();
        let number = call(&self.book, &self.question, &mut after);
        let count = if number == 0 { 1 + words_of(&after[..BLOCK])[TRIALS] as usize } else { 0 };
        assert!(count <= 9 && after[count * BLOCK..] == before[count * BLOCK..], "bytes past the blocks were written");
        if number == 0 {
            Ok(after[..count * BLOCK].chunks_exact(BLOCK).map(words_of).collect())
        } else {
            Err(number)
        }
    }
}

/// The kept solvents' blocks, and the pairs of two kept ones, numbered anew.
fn shorter_book(book: &[Words], kept: &[usize]) -> Vec<Words> {
    let n = book[0][2] as usize;
    let mut all = vec![book[0]];
    all[0][2] = kept.len() as u64;
    for (place, i) in kept.iter().enumerate() {
        let mut words = book[1 + i];
        words[1] = place as u64;
        all.push(words);
    }
    let place = |i: usize| kept.iter().position(|k| *k == i);
    for (words, (i, j)) in book[1 + n..].iter().zip(due_pairs(n)) {
        if let (Some(a), Some(b)) = (place(i), place(j)) {
            let mut words = *words;
            words[1..3].copy_from_slice(&[a as u64, b as u64]);
            all.push(words);
        }
    }
    all
}

fn shorter_question(rng: &mut Rng, question: &Words, kept: &[usize]) -> Words {
    let mut words = *question;
    for at in [FRACTIONS, K_VALUES] {
        for place in 0..8 {
            words[at + place] = kept.get(place).map_or_else(|| rng.bits(), |i| question[at + i]);
        }
    }
    words
}

fn same(a: u64, b: u64) -> bool {
    a == b || (f64::from_bits(a) == 0.0 && f64::from_bits(b) == 0.0)
}

/// The first word that is not as docs/FORMAT.md says: block and place in the longer answer.
pub fn difference(long: &[Words], short: &[Words], kept: &[usize]) -> Option<(usize, usize)> {
    let entries = |a: &Words, b: &Words, from: usize| {
        (0..kept.len()).find(|place| !same(a[from + kept[*place]], b[from + place])).map(|place| from + kept[place])
    };
    let plain = |a: &Words, b: &Words, mut places: std::ops::Range<usize>| places.find(|k| !same(a[*k], b[*k]));
    let head = |a: &Words, b: &Words| {
        let lists = || entries(a, b, LIQUID).or_else(|| entries(a, b, VAPOR));
        // A count has no zero but 0.
        let evaluations = || (a[EVALUATIONS] != b[EVALUATIONS]).then_some(EVALUATIONS);
        plain(a, b, 0..14).or_else(lists).or_else(|| plain(a, b, 30..63)).or_else(evaluations)
    };
    let component = |a: &Words, b: &Words| {
        let renumbered = kept.get(b[COMPONENT] as usize) == Some(&(a[COMPONENT] as usize));
        (!renumbered).then_some(COMPONENT)
    };
    let trial = |a, b| {
        let front = plain(a, b, 0..1).or_else(|| component(a, b)).or_else(|| plain(a, b, 2..5));
        front.or_else(|| entries(a, b, TRIAL)).or_else(|| plain(a, b, 13..63))
    };
    if let Some(at) = head(&long[0], &short[0]) {
        return Some((0, at));
    }
    // Word 12 is equal, so there are as many trials.
    let mut trials = long.iter().zip(short).enumerate().skip(1);
    trials.find_map(|(block, (a, b))| trial(a, b).map(|at| (block, at)))
}

/// What a sheet with an absent solvent showed.
#[derive(Debug, Clone, Copy, PartialEq, Eq)]
pub enum Shown {
    /// Refused, or of a distance one of its steps for another reason than its pressure, so that nothing is demanded.
    Refused(u64),
    Equal,
    /// The shorter sheet is refused, or a word differs: block and place.
    Shorter(u64),
    Word(usize, usize),
}

/// Both calls, with answer slices of two sizes.
pub fn shown(rng: &mut Rng, call: Call, long: &Sheet) -> Shown {
    let room = ANSWER_BYTES + rng.below(3) * 17;
    let answer = match long.blocks(rng, call, room) {
        Ok(blocks) => blocks,
        Err(number) => return Shown::Refused(number),
    };
    let kept = long.kept();
    let short = long.shorter(rng, &kept);
    let other = room + 1 + rng.below(700);
    match short.blocks(rng, call, other) {
        Ok(blocks) => difference(&answer, &blocks, &kept).map_or(Shown::Equal, |(block, at)| Shown::Word(block, at)),
        Err(number) => Shown::Shorter(number),
    }
}

/// The four words of a distance, or the number.
type Far = Result<[u64; RESULT_WORDS], u64>;

fn far(number: u64, words: [u64; RESULT_WORDS]) -> Far {
    if number == 0 {
        Ok(words)
    } else {
        Err(number)
    }
}

fn core_distance(sheet: &Sheet) -> Far {
    let mut words = [0; RESULT_WORDS];
    let number = crate::rattle::distance(&sheet.book, &sheet.question, &mut words).expect("built with the distance");
    far(number, words)
}

/// Whether the core finds another distance than the reference.
pub fn distance_differs(sheet: &Sheet) -> bool {
    let mut words = [0; RESULT_WORDS];
    let number = distance::answer(&sheet.book, &sheet.question, Way::Sides, &mut words);
    core_distance(sheet) != far(number.into(), words)
}

/// Both distances of the core: the same where every refused step leaves the pressures (14, 23).
pub fn distance_shown(rng: &mut Rng, long: &Sheet) -> Shown {
    let inside = match distance::search(&long.book, &long.question, Way::Sides) {
        Ok(found) => found.refused.into_iter().find(|number| ![14, 23].contains(number)),
        Err(number) => Some(number),
    };
    if let Some(number) = inside {
        return Shown::Refused(number.into());
    }
    let short = long.shorter(rng, &long.kept());
    match (core_distance(long), core_distance(&short)) {
        (Ok(a), Ok(b)) => (0..RESULT_WORDS).find(|at| a[*at] != b[*at]).map_or(Shown::Equal, |at| Shown::Word(0, at)),
        (_, Err(number)) | (Err(number), _) => Shown::Shorter(number),
    }
}
