//! Sheets of version 3 books: those of the stages `sheet` and `mass` with running sums, exchanged words, checks by the wrong rule, and
//! blocks 0 of all kinds and versions; and those at the borders of 1, 38, 2, 3 and 11.

use super::cases::{Cases, Kind};
use super::mass::{ask, entered};
use super::small::{sealed_by, Ask};
use super::{numbers, Rng};
use crate::sheet::blocks::{book_bytes, bytes_of, check_of, rule_of, seal, words_of, Rule, Words, BLOCK};
use crate::sheet::book::{open_book, MOLAR_MASS};
use crate::sheet::question::{BASIS, BY_MOLES};
use crate::sheet::ANSWER_BYTES;
use crate::stage::{Case, Stage};

/// First places of two neighbours among words 0 to 62.
pub const PLACES: usize = 62;

/// Words that are not read stand from here on, in block 0, a solvent's, a pair's and a question.
const UNREAD: [usize; 4] = [4, 46, 19, 28];
const QUESTION: usize = 3;

/// Versions that are none: other counts, and 3.0 as a float.
const NO_VERSION: [u64; 8] =
    [0, 4, 5, u64::MAX, 1 << 32 | 3, 1 << 63 | 3, 0x4008_0000_0000_0000, 0x0300_0000_0000_0000];

/// Kinds that are not a book's.
const NO_KIND: [u64; 7] = [0, 2, 3, 8, 9, 1 << 32 | 1, 1 << 63 | 1];

/// Words `place` and `place + 1` of a block that was right, exchanged; they are not equal.
#[derive(Debug, Clone, Copy, PartialEq, Eq)]
pub enum Exchange {
    /// In a version 3 book that passes 1 to 3; its block counts from 0, `n` is its number of solvents.
    Book { block: usize, n: usize, place: usize },
    /// In a question to a version 3 book.
    Question { place: usize },
}

pub struct Drawn {
    pub kind: Kind,
    pub case: Case,
    pub exchange: Option<Exchange>,
}

/// What is particular about a sheet.
#[derive(Debug, Clone, Copy, PartialEq, Eq)]
enum Part {
    /// As its stage has it, damages too.
    Raised,
    Book,
    /// Words that change how block 0 is read, with every check right by both rules.
    BothRight,
    Question,
    /// A question, or blocks, checked by the other rule.
    OtherRule,
    Head,
}

impl Part {
    fn draw(rng: &mut Rng) -> Self {
        match rng.below(100) {
            0..=69 => Part::Raised,
            70..=83 => Part::Book,
            84..=85 => Part::BothRight,
            86..=88 => Part::Question,
            89..=92 => Part::OtherRule,
            _ => Part::Head,
        }
    }
}

/// Sheets in the order of a seed.
pub struct Sheets {
    rng: Rng,
    stages: [Cases; 2],
}

impl Sheets {
    pub fn new(seed: u64, compact: bool) -> Self {
        Self { rng: Rng::new(seed), stages: [Stage::Sheet, Stage::Mass].map(|stage| Cases::new(stage, seed, compact)) }
    }

    pub fn draw(&mut self) -> Drawn {
        let part = Part::draw(&mut self.rng);
        let (kind, mut book, mut question, room) = self.raised(part != Part::Raised);
        let rng = &mut self.rng;
        let mut exchange = None;
        match part {
            Part::Raised => {}
            Part::Book => exchange = Some(exchange_in_book(rng, &mut book)),
            Part::BothRight => exchange = Some(exchange_in_head(rng, &mut book)),
            Part::Question => exchange = exchange_in_question(rng, &mut question),
            Part::OtherRule => other_rule(rng, &mut book, &mut question),
            Part::Head => other_head(rng, &mut book, &mut question),
        }
        let kind = match part {
            Part::Raised => kind,
            Part::Question => Kind::DamagedQuestion,
            _ => Kind::DamagedBook,
        };
        Drawn { kind, case: Case::Sheet { book, question, room }, exchange }
    }

    /// A sheet of either stage as one of a version 3 book; where `opened` is asked, its book passes 1 to 3.
    fn raised(&mut self, opened: bool) -> (Kind, Vec<u8>, Vec<u8>, usize) {
        loop {
            let turn = self.rng.below(2);
            let (kind, Case::Sheet { mut book, mut question, room }) = self.stages[turn].draw() else {
                unreachable!("a sheet was asked for")
            };
            raise(&mut self.rng, &mut book, &mut question);
            let passes = || rule_of(&book) == Rule::Running && !matches!(open_book(&book), Err(1 | 2 | 3 | 38));
            if !opened || passes() {
                return (kind, book, question, room);
            }
        }
    }
}

/// Version 3 in the place of 1 and 2, molar masses where there were none, and running sums; what was wrong with a check still is.
fn raise(rng: &mut Rng, book: &mut [u8], question: &mut [u8]) {
    if book.len() < BLOCK {
        return;
    }
    let [kind, version, n] = [0, 1, 2].map(|at| words_of(&book[..BLOCK])[at]);
    if kind != 1 || !(1..=2).contains(&version) {
        return;
    }
    for (at, block) in book.chunks_exact_mut(BLOCK).enumerate() {
        change(block, |words| {
            if at == 0 {
                words[1] = 3;
            } else if version == 1 && at as u64 <= n {
                words[MOLAR_MASS] = rng.range(0.018, 0.2).to_bits();
            }
        });
    }
    if question.len() == BLOCK {
        change(question, |_| {});
    }
}

/// Other words under a running sum that is as far from right as the plain sum was.
fn change(block: &mut [u8], edit: impl FnOnce(&mut Words)) {
    let mut words = words_of(block);
    let off = words[63].wrapping_sub(check_of(&words, Rule::Plain));
    edit(&mut words);
    words[63] = check_of(&words, Rule::Running).wrapping_add(off);
    block.copy_from_slice(&bytes_of(&words));
}

fn seal_block(block: &mut [u8], rule: Rule) {
    let mut words = words_of(block);
    seal(&mut words, rule);
    block.copy_from_slice(&bytes_of(&words));
}

fn seal_all(bytes: &mut [u8], rule: Rule) {
    bytes.chunks_exact_mut(BLOCK).for_each(|block| seal_block(block, rule));
}

fn exchange_in_book(rng: &mut Rng, book: &mut [u8]) -> Exchange {
    let n = words_of(&book[..BLOCK])[2] as usize;
    loop {
        let block = rng.below(book.len() / BLOCK);
        let kind = usize::from(block > 0) + usize::from(block > n);
        if let Some(place) = exchange_in(rng, &mut book[block * BLOCK..][..BLOCK], UNREAD[kind]) {
            return Exchange::Book { block, n, place };
        }
    }
}

fn exchange_in_question(rng: &mut Rng, question: &mut [u8]) -> Option<Exchange> {
    if question.len() != BLOCK {
        return None;
    }
    seal_block(question, Rule::Running);
    loop {
        if let Some(place) = exchange_in(rng, question, UNREAD[QUESTION]) {
            return Some(Exchange::Question { place });
        }
    }
}

/// Exchanges neighbours at any place of a block whose running sum is right. Of two equal ones that are not read one gets anything
/// first; of two that are read there is nothing to exchange.
fn exchange_in(rng: &mut Rng, block: &mut [u8], unread: usize) -> Option<usize> {
    let place = rng.below(PLACES);
    let mut words = words_of(block);
    if words[place] == words[place + 1] {
        if place + 1 < unread {
            return None;
        }
        words[place + 1] = !words[place] ^ rng.bits() >> 1;
        seal(&mut words, Rule::Running);
    }
    words.swap(place, place + 1);
    block.copy_from_slice(&bytes_of(&words));
    Some(place)
}

/// Kind and version, or version and n, exchanged in a book whose plain sums are right too.
fn exchange_in_head(rng: &mut Rng, book: &mut [u8]) -> Exchange {
    let mut blocks: Vec<Words> = book.chunks_exact(BLOCK).map(words_of).collect();
    blocks.iter_mut().for_each(agree);
    let n = blocks[0][2] as usize;
    let place = if n == 3 { 0 } else { rng.below(2) };
    let sealed = book_bytes(&blocks);
    book.copy_from_slice(&sealed);
    exchange(&mut book[..BLOCK], place);
    Exchange::Book { block: 0, n, place }
}

fn exchange(block: &mut [u8], place: usize) {
    let mut words = words_of(block);
    words.swap(place, place + 1);
    block.copy_from_slice(&bytes_of(&words));
}

/// Word 61, which isn't read, so that both rules give one check: Σ (62 − k) w_k = 0.
fn agree(words: &mut Words) {
    let sum = (0..61).fold(0u64, |sum, k| sum.wrapping_add((62 - k as u64).wrapping_mul(words[k])));
    words[61] = sum.wrapping_neg();
}

fn other_rule(rng: &mut Rng, book: &mut [u8], question: &mut [u8]) {
    let either = rng.pick(&[Rule::Plain, Rule::Running]);
    match rng.below(8) {
        // To a book of version 3, then to one of version 1 or 2.
        0..=2 => seal_all(question, Rule::Plain),
        3..=4 => {
            put_head(book, 1, rng.pick(&[1, 2]));
            seal_all(book, Rule::Plain);
            seal_all(question, either);
        }
        5 => seal_all(book, Rule::Plain),
        6 => {
            let block = BLOCK * rng.below(book.len() / BLOCK);
            seal_block(&mut book[block..block + BLOCK], Rule::Plain);
        }
        _ => {
            put_head(book, 1, rng.pick(&[1, 2]));
            seal_all(book, Rule::Running);
            seal_all(question, either);
        }
    }
}

fn put_head(book: &mut [u8], at: usize, word: u64) {
    book[8 * at..8 * at + 8].copy_from_slice(&word.to_le_bytes());
}

/// Kinds, versions and counts of all sorts, summed by either rule, by the one that holds, or not anew; now and then cut short.
fn other_head(rng: &mut Rng, book: &mut Vec<u8>, question: &mut [u8]) {
    if rng.one_in(4) {
        put_head(book, 0, if rng.one_in(8) { rng.bits() } else { rng.pick(&NO_KIND) });
    }
    let version = match rng.below(8) {
        0..=4 => rng.pick(&NO_VERSION),
        5 => numbers::any_bits(rng).to_bits(),
        _ => rng.below(6) as u64,
    };
    put_head(book, 1, version);
    if rng.one_in(10) {
        put_head(book, 2, rng.below(10) as u64);
    }
    match rng.below(6) {
        0 => {}
        1 => seal_all(book, Rule::Plain),
        2 => seal_all(book, Rule::Running),
        _ => {
            let rule = rule_of(book);
            seal_all(book, rule);
        }
    }
    if rng.one_in(2) {
        let rule = rule_of(book);
        seal_all(question, rule);
    }
    if rng.one_in(20) {
        book.truncate(rng.clone().below(book.len()));
    }
}

const PLAIN: [f64; 3] = [0.018, 0.046, 0.032];

/// Blocks of a small version 3 book.
fn third(n: usize) -> Vec<Words> {
    let masses: Vec<f64> = (0..n).map(|i| PLAIN[i % 3]).collect();
    let mut all = entered(&masses);
    all[0][1] = 3;
    all
}

/// All to solvent 0 and 1, by moles.
fn moles(task: u64, n: usize) -> Ask {
    let feed: &[f64] = if n == 1 { &[1.0] } else { &[0.3, 0.7] };
    ask(task, feed).word(BASIS, BY_MOLES)
}

fn by(rule: Rule, blocks: &[Words]) -> Vec<u8> {
    blocks.iter().flat_map(|words| sealed_by(rule, *words)).collect()
}

/// Sheets at the borders of 1, 38, 2, 3 and 11, with their numbers; compared before any others and stored for the replay.
pub fn borders() -> Vec<(Case, u32)> {
    let case = |(book, question, number)| (Case::Sheet { book, question, room: ANSWER_BYTES }, number);
    [answers(), versions(), rules(), exchanges()].into_iter().flatten().map(case).collect()
}

type Asked = (Vec<u8>, Vec<u8>, u32);

fn asked(blocks: &[Words], ask: Ask, number: u32) -> Asked {
    let book = book_bytes(blocks);
    let question = ask.bytes_for(&book);
    (book, question, number)
}

/// Each task by mass and by moles; refusals of later numbers.
fn answers() -> Vec<Asked> {
    let mut all = Vec::new();
    for task in 1..=9 {
        all.push(asked(&third(2), ask(task, &[0.3, 0.7]), 0));
        all.push(asked(&third(2), moles(task, 2), 0));
    }
    let with = |block: usize, at: usize, word: u64| {
        let mut blocks = third(2);
        blocks[block][at] = word;
        blocks
    };
    for (blocks, number) in [
        (with(0, 2, 0), 3),
        (with(0, 2, 9), 3),
        (with(0, 2, 3), 3),
        (with(1, 2, 0), 4),
        (with(2, 5, 0), 5),
        (with(2, MOLAR_MASS, 0), 35),
        (with(2, 2, 1000), 6),
        (with(3, 15, 2), 7),
        (with(3, 3, u64::MAX), 8),
        (with(3, 13, 1), 9),
    ] {
        all.push(asked(&blocks, moles(2, 2), number));
    }
    all.push(asked(&third(2), moles(10, 2), 12));
    all.push(asked(&third(2), moles(2, 2).word(BASIS, 2), 36));
    all.push(asked(&third(2), moles(2, 2).at(0.0), 13));
    all.push(asked(&third(2), moles(2, 2).at(273.15), 22));
    all
}

/// 38 after 1 and ahead of 2 and 3; block 0 of another kind is 3, whatever its version.
fn versions() -> Vec<Asked> {
    let with = |kind: u64, version: u64| {
        let mut blocks = third(1);
        blocks[0][..2].copy_from_slice(&[kind, version]);
        blocks
    };
    let question = moles(2, 1);
    let mut all = Vec::new();
    for (version, number) in (1..=3).map(|version| (version, 0)).chain(NO_VERSION.map(|version| (version, 38))) {
        all.push(asked(&with(1, version), question, number));
    }
    for version in NO_VERSION {
        // The wrong sums, and a count of solvents that is none.
        let mut blocks = with(1, version);
        all.push((by(Rule::Running, &blocks), question.bytes(), 38));
        blocks[0][2] = 9;
        all.push(asked(&blocks, question, 38));
    }
    for kind in NO_KIND {
        for version in [0, 3, 4] {
            let blocks = with(kind, version);
            all.push((by(Rule::Plain, &blocks), question.bytes(), 3));
            all.push((by(Rule::Running, &blocks), question.bytes(), 2));
        }
    }
    for version in [3, 4] {
        let mut cut = book_bytes(&with(1, version));
        cut.pop();
        all.push((cut, question.bytes(), 1));
    }
    // One block, of zeros but for kind and version.
    let mut head = [0; 64];
    head[0] = 1;
    for (version, number) in [(0, 38), (1, 3), (2, 3), (3, 3), (4, 38)] {
        head[1] = version;
        all.push(asked(&[head], question, number));
    }
    all
}

/// Books and questions whose checks are made by the other rule.
fn rules() -> Vec<Asked> {
    let other = |version: u64| if version == 3 { Rule::Plain } else { Rule::Running };
    let mut all = Vec::new();
    for version in 1..=3 {
        let mut blocks = third(2);
        blocks[0][1] = version;
        let right = book_bytes(&blocks);
        let question = moles(2, 2);
        all.push((right.clone(), sealed_by(other(version), question.0), 11));
        all.push((by(other(version), &blocks), question.bytes_for(&right), 2));
        for block in 0..blocks.len() {
            let mut one = right.clone();
            seal_block(&mut one[block * BLOCK..][..BLOCK], other(version));
            all.push((one, question.bytes_for(&right), 2));
        }
    }
    all
}

/// Those that change how block 0 is read, with plain sums that are right too; then at each place of a question, and of some block of
/// a book of two solvents.
fn exchanges() -> Vec<Asked> {
    let mut all = Vec::new();
    for n in [1, 2, 3, 4] {
        let mut blocks = third(n);
        blocks.iter_mut().for_each(agree);
        let book = book_bytes(&blocks);
        for (place, number) in [(0, 3), (1, if n > 3 { 38 } else { 3 })] {
            let mut changed = book.clone();
            exchange(&mut changed[..BLOCK], place);
            // Words 1 and 2 are equal where n is 3.
            let number = if n == 3 && place == 1 { 0 } else { number };
            let rule = rule_of(&changed);
            all.push((changed, sealed_by(rule, moles(2, n).0), number));
        }
    }
    let mut blocks = third(2);
    for (at, words) in blocks.iter_mut().enumerate() {
        let from = UNREAD[[0, 1, 1, 2][at]];
        (from..63).for_each(|k| words[k] = 1000 * at as u64 + k as u64);
        if at > 0 && at < 3 {
            words[MOLAR_MASS] = PLAIN[at].to_bits();
        }
    }
    let mut question = moles(2, 2);
    (UNREAD[QUESTION]..63).for_each(|k| question.0[k] = k as u64);
    let book = book_bytes(&blocks);
    let sealed = question.bytes_for(&book);
    all.push((book.clone(), sealed.clone(), 0));
    for place in 0..PLACES {
        let block = place % blocks.len();
        for block in [block, if place < 6 { 0 } else { block }] {
            if blocks[block][place] != blocks[block][place + 1] {
                let mut changed = book.clone();
                exchange(&mut changed[block * BLOCK..][..BLOCK], place);
                all.push((changed, sealed.clone(), 2));
            }
        }
        if question.0[place] != question.0[place + 1] {
            let mut changed = sealed.clone();
            exchange(&mut changed, place);
            all.push((book.clone(), changed, 11));
        }
    }
    all
}
