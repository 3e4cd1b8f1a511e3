//! Calls the core with book, question and answer slices, and drums, feeds, an offered pair or a queue of questions, or for a distance,
//! that end, or begin, at a page that can't be touched, and compares every byte with the reference.
//!
//! guarded [--count N] [--seed S]     N calls, the readers on N/2 answer slices, and N/2 sentences
//!
//! Each slice lies in pages of its own between two pages without access. All but the answer slice, and the words for a place in half of
//! the calls, can't be written during the call; of their pages every byte is compared, those outside the slices too.

use std::ffi::{c_int, c_void};
use std::process::ExitCode;
use std::ptr;

use reference::command::count_and_seed;
use reference::counts::Tally;
use reference::generate::cases::{sheets, Cases};
use reference::generate::questions::quick;
use reference::generate::Rng;
use reference::rattle::{
    zektonk_answer, zektonk_answer_placed, zektonk_distance, zektonk_distance_placed, zektonk_feeds,
    zektonk_feeds_placed, zektonk_floor, zektonk_lab, zektonk_pooled, zektonk_pooled_placed, zektonk_preview,
    zektonk_preview_placed, zektonk_queue, zektonk_queue_placed, zektonk_sentence,
};
use reference::sheet::anew::word;
use reference::sheet::blocks::{bytes_of, rule_of, seal, words_of, Rule, BLOCK};
use reference::sheet::distance::Way;
use reference::sheet::feeds::FEED;
use reference::sheet::place::{self, Place};
use reference::sheet::{self, distance, readers, sentence, ANSWER_BYTES};
use reference::stage::{Case, Stage};
use reference::with::With;

extern "C" {
    fn mmap(at: *mut c_void, length: usize, access: c_int, flags: c_int, file: c_int, offset: i64) -> *mut c_void;
    fn mprotect(at: *mut c_void, length: usize, access: c_int) -> c_int;
}

/// As Linux has them on x86-64.
const PAGE: usize = 4096;
const NO_ACCESS: c_int = 0;
const READ: c_int = 1;
const READ_AND_WRITE: c_int = 3;
const PRIVATE_ANONYMOUS: c_int = 0x22;

/// Longest slices that are lent. A book has 18,944 bytes at most, drums and feeds 4,096, a queue 32,768, an answer needs 4,608.
const BOOK: usize = 20_480;
const QUESTION: usize = 1024;
const QUEUE: usize = 36_864;
const MORE: usize = 8192;
const ANSWER: usize = 5120;
/// Of up to 8 feeds or questions, and of any.
const ANSWERS: [usize; 2] = [8 * ANSWER_BYTES + 512, 64 * ANSWER_BYTES + 512];

/// In the order of `place`.
const CALLS: [&str; 6] = ["plain", "with drums", "with feeds", "with a pair", "in a queue", "for a distance"];

/// Differences that are printed.
const SHOWN: usize = 10;

/// Pages between two that can't be touched.
struct Area {
    start: *mut u8,
    length: usize,
}

impl Area {
    /// At least `most` bytes.
    fn new(most: usize) -> Self {
        let length = most.div_ceil(PAGE) * PAGE;
        // SAFETY: a new mapping where the system puts it touches no other memory; it is never taken away.
        let all = unsafe { mmap(ptr::null_mut(), length + 2 * PAGE, NO_ACCESS, PRIVATE_ANONYMOUS, -1, 0) };
        assert!(all as isize != -1, "no pages to be had");
        let area = Self { start: all.cast::<u8>().wrapping_add(PAGE), length };
        area.allow(READ_AND_WRITE);
        area
    }

    fn allow(&self, access: c_int) {
        // SAFETY: the pages are this area's own, and no reference into them lives over the call.
        let failed = unsafe { mprotect(self.start.cast(), self.length, access) };
        assert_eq!(failed, 0, "the system keeps the access of pages as it was");
    }

    /// Where a slice of `length` bytes begins.
    fn place(&self, length: usize, at_end: bool) -> usize {
        if at_end {
            self.length - length
        } else {
            0
        }
    }

    fn at(&self, offset: usize) -> *mut u8 {
        self.start.wrapping_add(offset)
    }

    fn bytes(&self) -> &[u8] {
        // SAFETY: the pages can be read at all times, and nothing else holds them for writing.
        unsafe { std::slice::from_raw_parts(self.start, self.length) }
    }

    fn fill(&mut self, from: usize, bytes: &[u8]) {
        // SAFETY: between calls the pages can be written, and `self` is borrowed alone.
        let all = unsafe { std::slice::from_raw_parts_mut(self.start, self.length) };
        all[from..from + bytes.len()].copy_from_slice(bytes);
    }
}

enum What {
    Plain,
    /// One slice more; the allowance of a queue, whose questions stand in place of the question.
    With(With, Vec<u8>),
    /// Whose answer slice has words.
    Distance,
}

/// What is asked, and where.
struct Call {
    book: Vec<u8>,
    question: Vec<u8>,
    what: What,
    /// Bytes.
    room: usize,
    /// Words for the place, where the call gives it.
    place: Option<usize>,
    /// Book, question, answer, the slice more and the place.
    at_end: [bool; 5],
    /// Empty slices as null.
    null: bool,
}

/// Of calls with 0 to 6 words for the place, by what it is.
#[derive(Default)]
struct Places {
    all: usize,
    blocks: usize,
    pairs: usize,
    offered: usize,
}

impl Places {
    fn add(&mut self, place: Place) {
        self.all += 1;
        match place {
            Place::Nowhere => {}
            Place::Block(_) => self.blocks += 1,
            Place::Pair(..) => self.pairs += 1,
            Place::Offered => self.offered += 1,
        }
    }
}

/// An answer's pages, a place's or a length's, and what they hold before a call.
struct Noisy {
    area: Area,
    noise: Vec<u8>,
}

impl Noisy {
    fn new(rng: &mut Rng, most: usize) -> Self {
        let area = Area::new(most);
        let noise = random(rng, area.length);
        Self { area, noise }
    }

    /// Its noise with so many words written by `write`, and where they begin; the pages hold the noise.
    fn due(&mut self, words: usize, at_end: bool, write: impl FnOnce(&mut [u64])) -> (Vec<u8>, *mut u64) {
        let to = self.area.place(8 * words, at_end);
        let mut due = self.noise.clone();
        in_words(&mut due[to..to + 8 * words], write);
        self.area.fill(0, &self.noise);
        (due, self.area.at(to).cast())
    }
}

struct Pages {
    book: Area,
    question: Area,
    more: Area,
    /// From the shortest on.
    answers: [Noisy; 3],
    place: Noisy,
    places: Places,
}

impl Pages {
    fn new(rng: &mut Rng) -> Self {
        let [book, question, more] = [BOOK, QUEUE, MORE].map(Area::new);
        let answers = [ANSWER, ANSWERS[0], ANSWERS[1]].map(|most| Noisy::new(rng, most));
        Self { book, question, more, answers, place: Noisy::new(rng, 8), places: Places::default() }
    }

    /// The number, and whether all is as the reference has it.
    fn compare(&mut self, rng: &mut Rng, call: &Call) -> (u32, bool) {
        let which = self.answers.iter().position(|pages| call.room <= pages.area.length).expect("room for the answer");
        let Noisy { area, noise } = &mut self.answers[which];
        // A few bytes of the noise change from call to call.
        for _ in 0..8 {
            let at = rng.below(noise.len());
            noise[at] = rng.bits() as u8;
        }
        let mut expected = noise.clone();
        let to = area.place(call.room, call.at_end[2]);
        let lent = &mut expected[to..to + call.room];
        let number = match &call.what {
            What::Plain => sheet::answer(&call.book, &call.question, lent),
            What::With(with, more) => with.reference(&call.book, &call.question, more, lent),
            What::Distance => in_words(lent, |words| distance::answer(&call.book, &call.question, Way::Sides, words)),
        };
        area.fill(0, noise);
        let at = area.at(to);
        let place = place_of(call, number);
        if call.place.is_some() {
            self.places.add(place);
        }
        let (due, words) = self.place.due(call.place.unwrap_or(0), call.at_end[4], |words| place.write(words));
        let found = self.offered(call, at, words);
        let same = self.answers[which].area.bytes() == expected && self.place.area.bytes() == due;
        (number, found == u64::from(number) && same)
    }

    fn offered(&mut self, call: &Call, answer: *mut u8, place: *mut u64) -> u64 {
        let more = if let What::With(_, more) = &call.what { more } else { &[][..] };
        let read = [&call.book, &call.question, more];
        let mut from = [ptr::null_mut(); 3];
        let areas = [&mut self.book, &mut self.question, &mut self.more].into_iter().zip([0, 1, 3]);
        for ((area, end), (from, bytes)) in areas.zip(from.iter_mut().zip(read)) {
            let place = area.place(bytes.len(), call.at_end[end]);
            area.fill(place, bytes);
            area.allow(READ);
            *from = area.at(place);
        }
        let lent = |at: *mut u8, length: usize| if call.null && length == 0 { ptr::null_mut() } else { at };
        let [b, q, m] = [0, 1, 2].map(|k| lent(from[k], read[k].len()));
        let [b_len, q_len, m_len] = read.map(<[u8]>::len);
        let (a, a_len) = (lent(answer, call.room), call.room);
        let p = lent(place.cast(), call.place.unwrap_or(0)).cast();
        let allowance = if let What::With(With::Allowance, _) = call.what { word(more, 0) } else { 0 };
        // SAFETY: each pointer and length lie in pages of their own, apart from each other, that can be read or written
        // as the core's header asks.
        let number = unsafe {
            match (&call.what, call.place) {
                (What::Plain, None) => zektonk_answer(b, b_len, q, q_len, a, a_len),
                (What::With(With::Drums, _), None) => zektonk_pooled(b, b_len, q, q_len, m, m_len, a, a_len),
                (What::With(With::Feeds, _), None) => zektonk_feeds(b, b_len, q, q_len, m, m_len, a, a_len),
                (What::With(With::Pair, _), None) => zektonk_preview(b, b_len, m, m_len, q, q_len, a, a_len),
                (What::With(With::Allowance, _), None) => zektonk_queue(b, b_len, q, q_len, allowance, a, a_len),
                // The words lie at a multiple of eight.
                (What::Distance, None) => zektonk_distance(b, b_len, q, q_len, a.cast(), a_len / 8),
                (What::Plain, Some(w)) => zektonk_answer_placed(b, b_len, q, q_len, a, a_len, p, w),
                (What::With(With::Drums, _), Some(w)) => {
                    zektonk_pooled_placed(b, b_len, q, q_len, m, m_len, a, a_len, p, w)
                }
                (What::With(With::Feeds, _), Some(w)) => {
                    zektonk_feeds_placed(b, b_len, q, q_len, m, m_len, a, a_len, p, w)
                }
                (What::With(With::Pair, _), Some(w)) => {
                    zektonk_preview_placed(b, b_len, m, m_len, q, q_len, a, a_len, p, w)
                }
                (What::With(With::Allowance, _), Some(w)) => {
                    zektonk_queue_placed(b, b_len, q, q_len, allowance, a, a_len, p, w)
                }
                (What::Distance, Some(w)) => zektonk_distance_placed(b, b_len, q, q_len, a.cast(), a_len / 8, p, w),
            }
        };
        for area in [&self.book, &self.question, &self.more] {
            area.allow(READ_AND_WRITE);
        }
        number
    }

    /// Both readers on a slice, the floor's with room for so many words: its number, and whether all is as the reference has it.
    fn read(&mut self, rng: &mut Rng, slice: &[u8], room: usize) -> (u32, bool) {
        let (slice_at_end, words_at_end, null) = (rng.one_in(2), rng.one_in(2), rng.one_in(4));
        let Noisy { area, noise } = &mut self.answers[0];
        let to = area.place(8 * room, words_at_end);
        let mut expected = noise.clone();
        let number = in_words(&mut expected[to..to + 8 * room], |words| readers::write_floor(slice, words));
        area.fill(0, noise);
        let from = self.more.place(slice.len(), slice_at_end);
        self.more.fill(from, slice);
        self.more.allow(READ);
        let lent = |at: *mut u8, length: usize| if null && length == 0 { ptr::null_mut() } else { at };
        let (s, w) = (lent(self.more.at(from), slice.len()), lent(area.at(to), room).cast());
        // SAFETY: as in `offered`; the words lie at a multiple of eight.
        let found = unsafe { (zektonk_floor(s, slice.len(), w, room), zektonk_lab(s, slice.len())) };
        self.more.allow(READ_AND_WRITE);
        let due = (number.into(), readers::lab(slice).map_or(0, <[u8]>::len));
        (number, found == due && self.answers[0].area.bytes() == expected)
    }

    /// A sentence to a slice of so many bytes: its number, and whether all is as the reference has it.
    fn say(&mut self, rng: &mut Rng, number: u64, words: &[u64], room: usize) -> (u32, bool) {
        let [words_at_end, text_at_end, length_at_end] = [(); 3].map(|_| rng.one_in(2));
        let null = rng.one_in(4);
        let bytes: Vec<u8> = words.iter().flat_map(|word| word.to_le_bytes()).collect();
        let from = self.more.place(bytes.len(), words_at_end);
        self.more.fill(from, &bytes);
        let Noisy { area, noise } = &mut self.answers[0];
        let to = area.place(room, text_at_end);
        let mut expected = noise.clone();
        let mut refusal = 0;
        let (due, length) = self.place.due(1, length_at_end, |length| {
            refusal = sentence::write(number, words, &mut expected[to..to + room], &mut length[0]);
        });
        area.fill(0, noise);
        self.more.allow(READ);
        let lent = |at: *mut u8, length: usize| if null && length == 0 { ptr::null_mut() } else { at };
        let (p, t) = (lent(self.more.at(from), words.len()), lent(area.at(to), room));
        // SAFETY: as in `offered`; the words, and the length, lie at a multiple of eight.
        let found = unsafe { zektonk_sentence(number, p.cast(), words.len(), t, room, length) };
        self.more.allow(READ_AND_WRITE);
        let same = self.answers[0].area.bytes() == expected && self.place.area.bytes() == due;
        (refusal, found == u64::from(refusal) && same)
    }
}

/// Of a call that came to this number.
fn place_of(call: &Call, number: u32) -> Place {
    match &call.what {
        What::With(With::Pair, offered) => place::of_preview(&call.book, offered, number),
        _ => place::of(&call.book, number),
    }
}

/// What `write` makes of the words that stand in these bytes.
fn in_words<T>(bytes: &mut [u8], write: impl FnOnce(&mut [u64]) -> T) -> T {
    let mut words: Vec<u64> = bytes.chunks_exact(8).map(|bytes| word(bytes, 0)).collect();
    let number = write(&mut words);
    bytes.chunks_exact_mut(8).zip(words).for_each(|(place, word)| place.copy_from_slice(&word.to_le_bytes()));
    number
}

fn random(rng: &mut Rng, length: usize) -> Vec<u8> {
    (0..length).map(|_| rng.bits() as u8).collect()
}

/// The rooms around the least that is taken, and any other.
fn room(rng: &mut Rng) -> usize {
    match rng.below(8) {
        0 => rng.between(0, ANSWER),
        1 => rng.pick(&[0, 1, 511, 512, 4095, 4096, 4097, 4607, 4608, 4609, 5119, 5120]),
        2 | 3 => rng.between(4608, ANSWER),
        _ => sheet::ANSWER_BYTES,
    }
}

fn call(rng: &mut Rng, book: Vec<u8>, question: Vec<u8>) -> Call {
    let at_end = [(); 5].map(|_| rng.one_in(2));
    let place = rng.one_in(2).then(|| rng.below(7));
    Call { book, question, what: What::Plain, room: room(rng), place, at_end, null: rng.one_in(4) }
}

/// As `calls`, with drums, feeds or a pair: as they are in half of the calls, changed, of another length, or noise.
fn calls_with(rng: &mut Rng, case: &Case) -> Vec<Call> {
    if let Case::Distance { book, question, .. } = case {
        return distances(rng, book, question);
    }
    let Case::With { with, book, question, lent, .. } = case else { unreachable!("one slice more was asked for") };
    if *with == With::Allowance {
        return queues(rng, book, question, word(lent, 0));
    }
    let mut all = calls(rng, book, question, QUESTION);
    for call in &mut all {
        let mut more = lent[..lent.len().min(MORE)].to_vec();
        match rng.below(8) {
            0 => (0..rng.between(1, 3)).for_each(|_| change(rng, &mut more, MORE, false)),
            1 => more.resize(rng.below(MORE + 1), 0),
            2 => more = noise(rng, MORE),
            3 => more.clear(),
            4 if *with == With::Pair => more = mutated(rng, &more, BLOCK, true, |_| rule_of(&call.book)),
            _ => {}
        }
        if *with == With::Feeds {
            call.room += ANSWER_BYTES * (more.len() / FEED).clamp(1, 64) - ANSWER_BYTES;
        }
        call.what = What::With(*with, more);
    }
    all
}

/// As `calls`, with many questions in place of one: the allowance as it is in half of the calls, none, all there is, or any.
fn queues(rng: &mut Rng, book: &[u8], questions: &[u8], allowance: u64) -> Vec<Call> {
    let mut all = calls(rng, book, questions, QUEUE);
    for call in &mut all {
        let allowance = match rng.below(8) {
            0 => 0,
            1 => u64::MAX,
            2 => rng.below(10_000) as u64,
            3 => rng.bits() >> rng.below(64),
            _ => allowance,
        };
        call.room += ANSWER_BYTES * (call.question.len() / BLOCK).clamp(1, 64) - ANSWER_BYTES;
        call.what = What::With(With::Allowance, allowance.to_le_bytes().to_vec());
    }
    all
}

/// As `calls`, with 0 to 6 words for the result; as it is once, since that may take long.
fn distances(rng: &mut Rng, book: &[u8], question: &[u8]) -> Vec<Call> {
    let mut all = calls(rng, book, question, QUESTION).split_off(1);
    for call in &mut all {
        call.what = What::Distance;
        call.room = 8 * rng.below(7);
    }
    all
}

/// Six calls made from one sheet: as it is at two places, changed thrice, and with noise for the question.
fn calls(rng: &mut Rng, book: &[u8], question: &[u8], most: usize) -> Vec<Call> {
    let (book, question) = (&book[..book.len().min(BOOK)], &question[..question.len().min(most)]);
    let mut all = Vec::with_capacity(6);
    for _ in 0..2 {
        all.push(call(rng, book.to_vec(), question.to_vec()));
    }
    for sealed in [true, true, false] {
        let [of_book, of_question] = rng.pick(&[[true, true], [true, false], [false, true]]);
        let book = if of_book { mutated(rng, book, BOOK, sealed, rule_of) } else { book.to_vec() };
        let rule = rule_of(&book);
        let question = if of_question { mutated(rng, question, most, sealed, |_| rule) } else { question.to_vec() };
        all.push(call(rng, book, if sealed { quick(question, rule) } else { question }));
    }
    let book = if rng.one_in(3) { book.to_vec() } else { noise(rng, BOOK / 16) };
    let question = noise(rng, most);
    all.push(call(rng, book, question));
    all
}

/// Of any length up to `most`.
fn noise(rng: &mut Rng, most: usize) -> Vec<u8> {
    let length = rng.below(most + 1);
    random(rng, length)
}

/// One to three changes: a bit, a byte, a word, or the length; then the checks of all whole blocks made right by the rule of what
/// has come of it, or left.
fn mutated(rng: &mut Rng, bytes: &[u8], most: usize, sealed: bool, rule: impl Fn(&[u8]) -> Rule) -> Vec<u8> {
    let mut bytes = bytes.to_vec();
    for _ in 0..rng.between(1, 3) {
        change(rng, &mut bytes, most, sealed);
    }
    if sealed {
        let rule = rule(&bytes);
        for block in bytes.chunks_exact_mut(BLOCK) {
            let mut words = words_of(block);
            seal(&mut words, rule);
            block.copy_from_slice(&bytes_of(&words));
        }
    }
    bytes
}

fn change(rng: &mut Rng, bytes: &mut Vec<u8>, most: usize, sealed: bool) {
    if bytes.is_empty() || rng.one_in(12) {
        let length = if sealed { BLOCK * rng.below(most / BLOCK + 1) } else { rng.below(most + 1) };
        let filler = rng.bits() as u8;
        return bytes.resize(length, filler);
    }
    // Words that are read stand in the first 46 of a block.
    let block = BLOCK * rng.below(bytes.len().div_ceil(BLOCK));
    let at = (block + rng.below(8 * 46)).min(bytes.len() - 1);
    match rng.below(4) {
        0 => bytes[at] ^= 1 << rng.below(8),
        1 => bytes[at] = rng.bits() as u8,
        2 => {
            let value = rng.pick(&[0.0, -0.0, 1.0, -1.0, 0.5, 300.0, 1e300, 1e-300, f64::NAN, f64::INFINITY]).to_bits();
            put_word(bytes, at, value);
        }
        _ => {
            let value = rng.bits();
            put_word(bytes, at, value);
        }
    }
}

/// At the word that holds byte `at`, where it is whole.
fn put_word(bytes: &mut [u8], at: usize, value: u64) {
    let from = at / 8 * 8;
    if let Some(word) = bytes.get_mut(from..from + 8) {
        word.copy_from_slice(&value.to_le_bytes());
    }
}

fn main() -> ExitCode {
    let Some((count, seed)) = count_and_seed(20_000) else {
        eprintln!("usage: guarded [--count N] [--seed S]");
        return ExitCode::from(2);
    };
    let mut rng = Rng::new(seed ^ 0x6775_6172_6465_6421);
    let mut pages = Pages::new(&mut rng);
    let mut tallies = [(); CALLS.len()].map(|_| Tally::default());
    let (mut made, mut differences) = (0, 0);
    let mut plain = sheets(seed);
    let stages = [Stage::Pooled, Stage::Feeds, Stage::Preview, Stage::Queue, Stage::Distance];
    let mut others = stages.map(|stage| Cases::new(stage, seed, false));
    for turn in 0.. {
        if made >= count {
            break;
        }
        // Half of the sheets have nothing more.
        let all = if turn % 2 == 1 {
            calls_with(&mut rng, &others[turn / 2 % stages.len()].draw().1)
        } else {
            let (book, question) = plain.next().expect("sheets have no end");
            calls(&mut rng, &book, &question, QUESTION)
        };
        for call in all.iter().take(count - made) {
            let (number, same) = pages.compare(&mut rng, call);
            made += 1;
            tallies[place(call)].add(number);
            if !same {
                differences += 1;
                if differences <= SHOWN {
                    show(call, number);
                }
            }
        }
    }
    for (what, tally) in CALLS.iter().zip(&tallies) {
        let (all, accepted, refused) = (tally.all(), tally.accepted(), tally.refused());
        println!("guarded, {what}: {all} calls, {accepted} accepted, refused {refused}");
    }
    let mut tally = Tally::default();
    for case in Cases::new(Stage::Readers, seed, false).take(count / 2) {
        let Case::Readers { slice, room } = &case else { unreachable!("slices were asked for") };
        let (number, same) = pages.read(&mut rng, &slice[..slice.len().min(MORE)], *room);
        tally.add(number);
        if !same {
            differences += 1;
            if differences <= SHOWN {
                println!("difference: {} (reference {number})", case.line());
            }
        }
    }
    println!("guarded, readers: {} slices, {} read, refused {}", tally.all(), tally.accepted(), tally.refused());
    let mut tally = Tally::default();
    for case in Cases::new(Stage::Sentence, seed, false).take(count / 2) {
        let Case::Sentence { number, place, room } = &case else { unreachable!("sentences were asked for") };
        let (refusal, same) = pages.say(&mut rng, *number, place, *room);
        tally.add(refusal);
        if !same {
            differences += 1;
            if differences <= SHOWN {
                println!("difference: {} (reference {refusal})", case.line());
            }
        }
    }
    println!("guarded, sentences: {} asked, {} composed, refused {}", tally.all(), tally.accepted(), tally.refused());
    let Places { all, blocks, pairs, offered } = pages.places;
    println!("guarded, with the place: {all} calls, {blocks} blocks, {pairs} pairs, {offered} offered blocks");
    println!("guarded: {made} calls, {differences} differences");
    if differences == 0 {
        ExitCode::SUCCESS
    } else {
        ExitCode::FAILURE
    }
}

fn place(call: &Call) -> usize {
    match call.what {
        What::Plain => 0,
        What::With(With::Drums, _) => 1,
        What::With(With::Feeds, _) => 2,
        What::With(With::Pair, _) => 3,
        What::With(With::Allowance, _) => 4,
        What::Distance => 5,
    }
}

fn show(call: &Call, number: u32) {
    let (book, question, room) = (call.book.clone(), call.question.clone(), call.room);
    let case = match &call.what {
        What::Plain => Case::Sheet { book, question, room },
        What::With(with, lent) => Case::With { with: *with, book, question, lent: lent.clone(), room },
        What::Distance => Case::Distance { book, question, room: room / 8, way: Way::Sides },
    };
    println!(
        "difference: {} (reference {number}, words for the place {:?}, at the end {:?}, null {})",
        case.line(),
        call.place,
        call.at_end,
        call.null
    );
}
