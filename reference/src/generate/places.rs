//! Books that say no at one block or at several, through each of the six calls: solvents, pairs, block 0, checks, CAS numbers that are
//! equal, lengths; slices of up to 200 blocks; offered blocks that say no beside them. And calls at the borders, with their places.

use super::books::{self, put, Draft};
use super::cases::{Cases, Kind};
use super::small::{bytes, sealed_by, Ask};
use super::{batches, mass, pooled, previews, questions, wilson, Rng};
use crate::sheet::blocks::{rule_of, words_of, Rule, Words, BLOCK};
use crate::sheet::book::{due_pairs, DENSITY, MODEL, MOLAR_MASS, VAPOR_PRESSURE, WILSON};
use crate::sheet::distance::{Way, RESULT_WORDS};
use crate::sheet::feeds::bytes_of_feeds;
use crate::sheet::place::Place::{self, Block, Nowhere, Offered, Pair};
use crate::sheet::queue::FLASH;
use crate::sheet::ANSWER_BYTES;
use crate::stage::{Case, Stage};
use crate::with::With;

/// Calls that are made of one.
const OF_ONE: usize = 24;
/// Blocks of the longest slices.
pub const LONGEST: usize = 200;
/// Numbers that have a place in a book.
const PLACED: [u32; 7] = [2, 4, 5, 6, 7, 8, 9];
const NUMBERS: [u32; 12] = [2, 3, 4, 4, 5, 6, 6, 7, 8, 9, 35, 37];

/// Calls in the order of a seed.
pub struct Calls {
    rng: Rng,
    plain: [Cases; 4],
    others: [Cases; 5],
    asked: Case,
    left: usize,
}

impl Calls {
    pub fn new(seed: u64, compact: bool) -> Self {
        let of = |stage| Cases::new(stage, seed, compact).without_borders();
        Self {
            rng: Rng::new(seed ^ 0x0070_6c61_6365),
            plain: [Stage::Sheet, Stage::Mass, Stage::Exchanged, Stage::Wilson].map(of),
            others: [Stage::Pooled, Stage::Feeds, Stage::Preview, Stage::Queue, Stage::Distance].map(of),
            asked: Case::Book { book: Vec::new() },
            left: 0,
        }
    }

    pub fn draw(&mut self) -> (Kind, Case) {
        if self.left == 0 {
            let which = self.rng.pick(&[0, 0, 0, 1, 1, 1, 2, 2, 3, 3, 3, 3, 4, 4, 5]);
            let cases = if which == 0 { &mut self.plain[self.rng.below(4)] } else { &mut self.others[which - 1] };
            self.asked = cases.draw().1;
            if let Case::Distance { way, .. } = &mut self.asked {
                *way = Way::Sides;
            }
            self.left = OF_ONE;
        }
        self.left -= 1;
        let mut asked = self.asked.clone();
        let kind = harm(&mut self.rng, &mut asked);
        let room = if self.rng.one_in(2) { 3 } else { self.rng.below(7) };
        (kind, Case::Placed { asked: Box::new(asked), room })
    }
}

/// Book, question or questions, and the slice more.
fn slices(asked: &mut Case) -> (&mut Vec<u8>, &mut Vec<u8>, Option<&mut Vec<u8>>) {
    match asked {
        Case::With { with: With::Pair, book, question, lent, .. } => (book, question, Some(lent)),
        Case::Sheet { book, question, .. }
        | Case::With { book, question, .. }
        | Case::Distance { book, question, .. } => (book, question, None),
        _ => unreachable!("one of the six calls"),
    }
}

/// Seldom nothing where the call takes long.
fn harm(rng: &mut Rng, asked: &mut Case) -> Kind {
    let untouched_in = match asked {
        Case::Sheet { .. } => 16,
        Case::With { with: With::Drums | With::Pair, .. } => 16,
        Case::With { .. } => 80,
        _ => 250,
    };
    let (book, question, offered) = slices(asked);
    let whole = !book.is_empty() && book.len().is_multiple_of(BLOCK);
    if let Some(offered) = offered.filter(|_| whole && rng.one_in(2)) {
        spoil_offered(rng, book, offered);
        // The book as it is, in half of them.
        if rng.one_in(2) {
            return Kind::DamagedBook;
        }
    }
    if !whole || rng.one_in(untouched_in) {
        return Kind::Realistic;
    }
    *book = harmed_book(rng, draft_of(book), question);
    Kind::DamagedBook
}

/// With several blocks wrong for one number or for several, words of any bits, or another count of blocks or bytes.
fn harmed_book(rng: &mut Rng, mut draft: Draft, question: &mut Vec<u8>) -> Vec<u8> {
    match rng.below(16) {
        0..=6 => {
            let number = rng.pick(&PLACED);
            let times = rng.between(1, 4);
            harmed(rng, draft, &vec![number; times])
        }
        7..=11 => {
            let numbers: Vec<u32> = (0..rng.between(1, 4)).map(|_| rng.pick(&NUMBERS)).collect();
            harmed(rng, draft, &numbers)
        }
        12 => {
            any_words(rng, &mut draft);
            *question = questions::quick(std::mem::take(question), rule_of(&draft.bytes()));
            let checks = if rng.one_in(4) { vec![2] } else { Vec::new() };
            harmed(rng, draft, &checks)
        }
        13 => {
            draft.blocks = long(rng, &draft.blocks);
            let wrong = rng.pick(&[0, 1, 1, 2, 3, 4]);
            harmed(rng, draft, &vec![2; wrong])
        }
        14 => {
            let number = rng.pick(&NUMBERS);
            more_or_fewer(rng, draft, number)
        }
        _ => {
            let number = rng.pick(&PLACED);
            let mut book = harmed(rng, draft, &[number]);
            let (length, filler) = (book.len(), rng.bits() as u8);
            book.resize(rng.pick(&[0, length - 1, length + 1, length - BLOCK / 2, length / 2 + 8]), filler);
            book
        }
    }
}

fn draft_of(book: &[u8]) -> Draft {
    let blocks: Vec<Words> = book.chunks(BLOCK).map(words_of).collect();
    let n = (blocks[0][2] as usize).clamp(1, 8);
    Draft { blocks, n }
}

/// The first, the last, or any of so many.
fn one_of(rng: &mut Rng, count: usize) -> usize {
    match rng.below(5) {
        0 => 0,
        1 => count - 1,
        _ => rng.below(count),
    }
}

/// Its bytes with something wrong for each of the numbers, the checks made right but for 2.
fn harmed(rng: &mut Rng, mut draft: Draft, numbers: &[u32]) -> Vec<u8> {
    for number in numbers.iter().filter(|number| **number != 2) {
        harm_block(rng, &mut draft, *number);
    }
    let mut bytes = draft.bytes();
    let rule = rule_of(&bytes);
    for _ in numbers.iter().filter(|number| **number == 2) {
        let k = one_of(rng, draft.blocks.len());
        previews::spoil_check(rng, &mut bytes[BLOCK * k..BLOCK * (k + 1)], rule);
    }
    bytes
}

/// One thing wrong for the number, where the book has such a block.
fn harm_block(rng: &mut Rng, draft: &mut Draft, number: u32) {
    let (n, wilson) = (draft.n, draft.blocks[0][MODEL] == WILSON);
    let (i, record) = (one_of(rng, n), rng.pick(&[VAPOR_PRESSURE, DENSITY]));
    let pair = due_pairs(n).len();
    let of_pair = 1 + n + if pair > 0 { one_of(rng, pair) } else { 0 };
    match number {
        3 => return books::damage_head(rng, draft),
        37 => {
            draft.blocks[0][MODEL] = if draft.blocks[0][1] == 1 { WILSON } else { mass::neither(rng) };
            return;
        }
        6 => return equal_numbers(rng, draft),
        _ => {}
    }
    let at = if matches!(number, 4 | 5 | 35) { 1 + i } else { of_pair };
    let Some(words) = draft.blocks.get_mut(at) else { return };
    match number {
        4 | 5 => books::spoil_solvent(rng, words, i, record, number),
        35 => put(words, MOLAR_MASS, mass::no_mass(rng)),
        7 => books::spoil_pair(rng, words, number),
        _ if wilson => wilson::spoil_pair(rng, words),
        _ => books::spoil_pair(rng, words, number),
    }
}

/// One or two pairs of solvents, or all of some, that have one CAS number.
fn equal_numbers(rng: &mut Rng, draft: &mut Draft) {
    if draft.n == 1 || draft.blocks.len() <= draft.n {
        return;
    }
    if rng.one_in(8) {
        let (low, number) = (rng.below(draft.n), rng.bits() | 1);
        draft.blocks[1 + low..=draft.n].iter_mut().for_each(|words| words[2] = number);
        return;
    }
    for _ in 0..rng.between(1, 2) {
        let (i, j) = rng.pick(&due_pairs(draft.n));
        draft.blocks[1 + j][2] = draft.blocks[1 + i][2];
    }
}

/// One to four words of any bits.
fn any_words(rng: &mut Rng, draft: &mut Draft) {
    for _ in 0..rng.between(1, 4) {
        let k = one_of(rng, draft.blocks.len());
        draft.blocks[k][rng.below(46)] = rng.bits() >> rng.pick(&[0, 0, 32, 56]);
    }
}

/// 1 to 200 blocks behind a block 0 of any rule: the book's own over and over, zeros, or noise.
fn long(rng: &mut Rng, own: &[Words]) -> Vec<Words> {
    let count = rng.between(1, LONGEST);
    let kind = rng.below(3);
    let mut all: Vec<Words> = (0..count)
        .map(|k| match kind {
            0 => own[k % own.len()],
            1 => [0; 64],
            _ => std::array::from_fn(|_| rng.bits()),
        })
        .collect();
    all[0] = own[0];
    match rng.below(6) {
        0 => all[0][0] = rng.pick(&[0, 2, 1 << 32 | 1]),
        1 => all[0][1] = 3,
        2 => all[0][1] = 1,
        _ => {}
    }
    all
}

/// A block that is missing, or stands twice, anywhere.
fn more_or_fewer(rng: &mut Rng, mut draft: Draft, number: u32) -> Vec<u8> {
    harm_block(rng, &mut draft, number);
    let k = one_of(rng, draft.blocks.len());
    if draft.blocks.len() > 1 && rng.one_in(2) {
        draft.blocks.remove(k);
    } else {
        let words = draft.blocks[k];
        draft.blocks.insert(k, words);
    }
    harmed(rng, draft, &vec![2; rng.clone().below(2)])
}

/// As previews are spoiled; a few are right still.
fn spoil_offered(rng: &mut Rng, book: &[u8], offered: &mut Vec<u8>) {
    if offered.len() == BLOCK {
        *offered = previews::spoiled(rng, &draft_of(book), words_of(offered));
    }
}

/// A call at the borders, with its number and place.
pub struct Border {
    pub case: Case,
    pub number: u32,
    pub place: Place,
}

const EIGHT: usize = 8;
/// Of eight solvents: 28 pairs behind block 0 and the solvents.
const BLOCKS: usize = 37;

/// Blocks, those whose check is made wrong, and number and place.
type Asked = (Vec<Words>, Vec<usize>, u32, Place);

/// Compared before any others.
pub fn borders() -> Vec<Border> {
    let all = [each_block(), two_blocks(), two_questions(), equal(), elsewhere(), long_slices()];
    let all = all.into_iter().flatten().enumerate();
    let made = all.map(|(turn, (blocks, wrong, number, place))| {
        let book = checked(&blocks, &wrong);
        let room = if turn % 4 == 0 { turn / 4 % 7 } else { 3 };
        Border { case: placed(call(turn % 6, book), room), number, place }
    });
    made.chain(all_calls()).chain(offered()).collect()
}

fn placed(asked: Case, room: usize) -> Case {
    Case::Placed { asked: Box::new(asked), room }
}

/// Checks are right but for those.
fn checked(blocks: &[Words], wrong: &[usize]) -> Vec<u8> {
    let mut book = bytes(blocks);
    for k in wrong {
        // A word that no question but 2 is put to.
        book[BLOCK * k + 8 * 60] ^= 1;
    }
    book
}

/// Eight solvents, or another count, both models, in the versions that have them.
fn books_of(n: usize) -> Vec<Vec<Words>> {
    let masses: Vec<f64> = (0..n).map(|i| 0.018 + 0.01 * i as f64).collect();
    let mut all = Vec::new();
    for version in 1..=3 {
        let mut made = vec![mass::entered(&masses)];
        if version > 1 {
            made.push(wilson::entered(&masses, wilson::ALCOHOL));
        }
        made.iter_mut().for_each(|blocks| blocks[0][1] = version);
        all.append(&mut made);
    }
    all
}

fn eight(version: u64) -> Vec<Words> {
    let mut blocks = mass::entered(&[0.05; EIGHT]);
    blocks[0][1] = version;
    blocks
}

/// Which of the six, with a question of the book's n, or of two where it has none.
fn call(which: usize, book: Vec<u8>) -> Case {
    let n = book.get(..BLOCK).map_or(2, |head| words_of(head)[2] as usize);
    let n = if (1..=EIGHT).contains(&n) { n } else { 2 };
    let feed = vec![1.0 / n as f64; n];
    let ask = |task: u64| Ask::new(task, &feed).bytes_for(&book);
    let with = |with: With, question: Vec<u8>, lent: Vec<u8>| Case::With {
        with,
        book: book.clone(),
        question,
        lent,
        room: ANSWER_BYTES,
    };
    match which {
        0 => Case::Sheet { question: ask(1), book, room: ANSWER_BYTES },
        1 => with(With::Drums, ask(2), crate::sheet::pool::bytes_of(&[pooled::drum(&vec![1000; n])])),
        2 => with(With::Feeds, ask(3), bytes_of_feeds(&[batches::feed(&feed)])),
        3 => {
            let last = book.chunks_exact(BLOCK).next_back().unwrap_or_default().to_vec();
            with(With::Pair, ask(1), last)
        }
        4 => with(With::Allowance, ask(FLASH), u64::MAX.to_le_bytes().to_vec()),
        // Refused by its pressure once the book passes.
        _ => {
            let question = Ask::new(FLASH, &feed).under(1.0).bytes_for(&book);
            Case::Distance { book, question, room: RESULT_WORDS, way: Way::Sides }
        }
    }
}

/// One thing wrong for 4, 5, 7, 8 or 9: in turn, all words that these are put to.
fn spoil(words: &mut Words, number: u32, turn: usize) {
    let nan = f64::NAN.to_bits();
    let changes: &[(usize, u64)] = match number {
        4 => &[(0, 3), (1, 99), (2, 0), (7, 0), (7, 9), (28, 0), (28, 9), (1, 1 << 32)],
        5 => &[(3, nan), (4, 0), (5, 0), (6, nan), (8, nan), (16, nan), (24, 0), (25, 1 << 63), (26, nan), (29, nan)],
        7 => &[(0, 2), (1, 9), (2, 9), (15, 2), (18, 2), (1, 1 << 40), (0, 1 << 32 | 3)],
        8 => &[(3, nan), (4, nan), (5, f64::INFINITY.to_bits()), (6, f64::NEG_INFINITY.to_bits())],
        _ => &[(11, 0), (12, 1), (13, 1 << 62), (14, 7)],
    };
    let (at, word) = changes[turn % changes.len()];
    words[at] = word;
}

/// Blocks of a book of n that the number is put to.
fn blocks_of(number: u32, n: usize) -> std::ops::Range<usize> {
    let all = 1 + n + due_pairs(n).len();
    match number {
        2 => 0..all,
        4 | 5 => 1..1 + n,
        _ => 1 + n..all,
    }
}

fn at(k: usize) -> Place {
    Block(k as u64)
}

/// Wrong for the number at these blocks: blocks, and those whose check is wrong.
fn wrong_at(mut blocks: Vec<Words>, number: u32, places: &[usize], turn: usize) -> (Vec<Words>, Vec<usize>) {
    if number == 2 {
        return (blocks, places.to_vec());
    }
    for (k, place) in places.iter().enumerate() {
        spoil(&mut blocks[*place], number, turn + k);
    }
    (blocks, Vec::new())
}

/// Each alone, in each kind of book.
fn each_block() -> Vec<Asked> {
    let mut all = Vec::new();
    for blocks in [books_of(EIGHT), books_of(2)].concat() {
        let (n, wilson) = (blocks[0][2] as usize, blocks[0][MODEL] == WILSON);
        for number in [2, 4, 5, 7, 8, 9] {
            for k in blocks_of(number, n) {
                if number == 9 && wilson {
                    // Its alphas aren't read.
                    let (blocks, wrong) = wrong_at(blocks.clone(), 9, &[k], all.len());
                    all.push((blocks, wrong, u32::MAX, Nowhere));
                    continue;
                }
                let (blocks, wrong) = wrong_at(blocks.clone(), number, &[k], all.len());
                all.push((blocks, wrong, number, at(k)));
            }
        }
    }
    all
}

/// The lower of every two, and the lowest of three that end with the last.
fn two_blocks() -> Vec<Asked> {
    let mut all = Vec::new();
    for number in [2, 4, 5, 7, 8, 9] {
        let places = blocks_of(number, EIGHT);
        let last = places.end - 1;
        for low in places.clone() {
            for high in low + 1..places.end {
                let places = if high < last { vec![high, low, last] } else { vec![low, high] };
                let (blocks, wrong) = wrong_at(eight(1 + all.len() as u64 % 3), number, &places, all.len());
                all.push((blocks, wrong, number, at(low)));
            }
        }
    }
    all
}

/// The first question's last block, and the second's first; blocks 35 and 36, of which each says no to one.
fn two_questions() -> Vec<Asked> {
    let numbers = [2, 4, 5, 7, 8, 9];
    let mut all = Vec::new();
    for (k, first) in numbers.into_iter().enumerate() {
        for second in &numbers[k + 1..] {
            let (low, high) = (blocks_of(*second, EIGHT).start, blocks_of(first, EIGHT).end - 1);
            let (blocks, _) = wrong_at(eight(3), *second, &[low], 0);
            let (blocks, wrong) = wrong_at(blocks, first, &[high], 0);
            all.push((blocks, wrong, first, at(high)));
            for [low, high] in [[35, 36], [36, 35]].into_iter().filter(|_| first > 5) {
                let (blocks, _) = wrong_at(eight(1), *second, &[low], 0);
                let (blocks, wrong) = wrong_at(blocks, first, &[high], 0);
                all.push((blocks, wrong, first, at(high)));
            }
        }
    }
    // 6 stands behind the solvents' and 35, and before the pairs'.
    for (number, place) in [(2, 36), (4, 8), (5, 8), (7, 9), (8, 9), (9, 9)] {
        let mut blocks = eight(2);
        blocks[8][2] = blocks[7][2];
        let (blocks, wrong) = wrong_at(blocks, number, &[place], 0);
        all.push(if number < 6 { (blocks, wrong, number, at(place)) } else { (blocks, wrong, 6, Pair(6, 7)) });
    }
    all
}

/// Two solvents with one number, in every pair, and in every two: also (0, 3) and (1, 2), of which the later solvent's first is the second.
fn equal() -> Vec<Asked> {
    let pairs = due_pairs(EIGHT);
    let mut all = Vec::new();
    let mut with = |equal: &[(usize, usize)], first: (usize, usize)| {
        let mut blocks = eight(1 + all.len() as u64 % 3);
        for (i, j) in equal {
            let number = blocks[1 + i][2];
            let old = blocks[1 + j][2];
            blocks[1..=EIGHT].iter_mut().filter(|words| words[2] == old).for_each(|words| words[2] = number);
        }
        all.push((blocks, Vec::new(), 6, Pair(first.0 as u64, first.1 as u64)));
    };
    for (k, one) in pairs.iter().enumerate() {
        with(&[*one], *one);
        for other in &pairs[k + 1..] {
            let mut of_both = vec![one.0, one.1, other.0, other.1];
            of_both.sort_unstable();
            of_both.dedup();
            // Three solvents with one number, or two with each of two: then the first of both pairs comes first.
            with(&[*one, *other], if of_both.len() == 3 { (of_both[0], of_both[1]) } else { *one });
        }
    }
    all
}

/// Numbers that have no place, beside blocks that say no to others.
fn elsewhere() -> Vec<Asked> {
    let mut all = Vec::new();
    let mut with = |number: u32, change: &dyn Fn(&mut Vec<Words>)| {
        let (mut blocks, _) = wrong_at(eight(2), 7, &[9, 36], 0);
        blocks[8][2] = blocks[7][2];
        change(&mut blocks);
        all.push((blocks, Vec::new(), number, Nowhere));
    };
    with(38, &|blocks| blocks[0][1] = 4);
    with(37, &|blocks| blocks[0][MODEL] = 2);
    with(35, &|blocks| put(&mut blocks[8], MOLAR_MASS, 0.0));
    with(3, &|blocks| blocks[0][2] = 9);
    with(3, &|blocks| blocks[0][0] = 2);
    with(3, &|blocks| blocks.truncate(BLOCKS - 1));
    with(3, &|blocks| blocks.push([0; 64]));
    with(1, &|blocks| blocks.clear());
    all
}

/// Checks by the rule that block 0 asks for, far behind every book's last block too.
fn long_slices() -> Vec<Asked> {
    let mut all = Vec::new();
    for count in [1, 36, 37, 38, 64, 65, 128, LONGEST] {
        for head in [[1, 1, 8], [1, 2, 8], [1, 3, 8], [0, 3, 8], [2, 7, 0]] {
            let mut blocks: Vec<Words> = (0..count).map(|k| [k as u64 + 5; 64]).collect();
            blocks[0][..3].copy_from_slice(&head);
            for k in [0, 1, count / 2, count - 1].into_iter().filter(|k| *k < count) {
                all.push((blocks.clone(), vec![k], 2, at(k)));
                let last = count - 1;
                if k < last {
                    all.push((blocks.clone(), vec![last, k], 2, at(k)));
                }
            }
            // Its word 3 names no model.
            let number = if head[0] == 1 && count == BLOCKS { 37 } else { 3 };
            all.push((blocks, Vec::new(), number, Nowhere));
        }
    }
    // All made by the other rule: of zeros both are the same.
    for (version, rule) in [(1, Rule::Running), (3, Rule::Plain)] {
        let mut blocks = eight(version);
        blocks[1] = [0; 64];
        let other: Vec<usize> = (0..BLOCKS).filter(|k| *k != 1).collect();
        assert!(other.iter().all(|k| sealed_by(rule, blocks[*k]) != sealed_by(rule_of(&bytes(&blocks)), blocks[*k])));
        all.push((blocks, other, 2, at(0)));
    }
    all
}

/// Every room with a place of each kind, and calls that are answered, by each call.
fn all_calls() -> Vec<Border> {
    let mut all = Vec::new();
    let two = || mass::entered(&[0.06, 0.018]);
    for which in 0..6 {
        for room in 0..=6 {
            let mut with = |number: u32, place: Place, change: &dyn Fn(&mut Vec<Words>)| {
                let mut blocks = two();
                change(&mut blocks);
                let case = placed(call(which, bytes(&blocks)), room);
                all.push(Border { case, number, place });
            };
            // The distance's question is refused by its pressure.
            with(if which == 5 { 23 } else { 0 }, Nowhere, &|_| {});
            with(4, Block(1), &|blocks| blocks[1][0] = 0);
            with(6, Pair(0, 1), &|blocks| blocks[1][2] = blocks[2][2]);
            with(3, Nowhere, &|blocks| blocks[0][2] = 8);
        }
    }
    all
}

/// Offered blocks that say no, to a book that passes and to one that doesn't.
fn offered() -> Vec<Border> {
    let mut all = Vec::new();
    for blocks in books_of(3) {
        let nrtl = blocks[0][MODEL] != WILSON;
        let right = bytes(&blocks);
        let rule = rule_of(&right);
        let own = blocks[blocks.len() - 1];
        let numbers = [1, 2, 7, 8, 9, 0];
        for number in numbers.into_iter().filter(|number| nrtl || *number != 9) {
            let mut words = own;
            if number > 2 {
                spoil(&mut words, number, 0);
            }
            let mut lent = sealed_by(rule, words);
            match number {
                1 => lent.truncate(BLOCK - 1),
                2 => lent[8 * 60] ^= 1,
                _ => {}
            }
            let mut tried = |book: &[u8], task: u64, number: u32, place: Place| {
                for room in [0, 2, 3, 6] {
                    let question = Ask::new(task, &[0.25, 0.25, 0.5]).bytes_for(book);
                    let (book, lent) = (book.to_vec(), lent.clone());
                    let case = Case::With { with: With::Pair, book, question, lent, room: ANSWER_BYTES };
                    all.push(Border { case: placed(case, room), number, place });
                }
            };
            let place = if number == 0 { Nowhere } else { Offered };
            tried(&right, 1, number, place);
            // A task that is none: the offered block's numbers stand before.
            tried(&right, 10, if number == 0 { 12 } else { number }, place);
            for no in [2, 4, 5, 7, 8, 9].into_iter().filter(|no| nrtl || *no != 9) {
                let places = blocks_of(no, 3);
                let (blocks, wrong) = wrong_at(blocks.clone(), no, &[places.end - 1], 0);
                tried(&checked(&blocks, &wrong), 1, no, at(places.end - 1));
            }
        }
    }
    all
}
