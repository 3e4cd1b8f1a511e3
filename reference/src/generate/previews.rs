//! Previews: pairs offered to books of both models and all versions, right ones and those wrong in each way, also where the book is wrong
//! too; and those at the borders of the offered block's 1, 2, 7, 8 and 9.

use super::books::{self, Draft, BOUNDS, FLAG};
use super::cases::{Kind, TASKS};
use super::mass;
use super::pooled::{self, books_of_two, two};
use super::small::{bytes, sealed_by, Ask};
use super::{numbers, questions, wilson, Rng};
use crate::sheet::blocks::{bytes_of, check_of, rule_of, words_of, Rule, Words, BLOCK};
use crate::sheet::book::{MODEL, WILSON};
use crate::sheet::question::{BASIS, BY_MASS, BY_MOLES, TEMPERATURE};
use crate::sheet::{open_book, ANSWER_BYTES};
use crate::stage::Case;
use crate::with::With;

/// Places in a pair block.
const KIND: usize = 0;
const I: usize = 1;
const J: usize = 2;
const INFERRED: usize = 18;

/// What is particular about a preview.
#[derive(Debug, Clone, Copy, PartialEq, Eq)]
enum Part {
    /// A newly fitted pair.
    Plain,
    /// The book's own block, byte for byte.
    Own,
    WildPair,
    /// An extreme pair with a solvent that is absent.
    WildAbsent,
    WildBook,
    WildQuestion,
    /// An offered block that is wrong.
    NoPair,
    /// The same, or a right one, to a book that is wrong; in half of them its own pair with that i and j.
    NeitherRight,
    NoBasis,
    NoBook,
    Edge,
    DamagedQuestion,
    DamagedBook,
}

impl Part {
    fn draw(rng: &mut Rng) -> Self {
        match rng.below(100) {
            0..=34 => Part::Plain,
            35..=38 => Part::Own,
            39..=45 => Part::WildPair,
            46..=58 => Part::WildAbsent,
            59..=60 => Part::WildBook,
            61..=62 => Part::WildQuestion,
            63..=79 => Part::NoPair,
            80..=84 => Part::NeitherRight,
            85 => Part::NoBasis,
            86..=87 => Part::NoBook,
            88..=91 => Part::Edge,
            92..=96 => Part::DamagedQuestion,
            _ => Part::DamagedBook,
        }
    }

    fn kind(self) -> Kind {
        match self {
            Part::Plain | Part::Own => Kind::Realistic,
            Part::WildAbsent => Kind::WildAbsent,
            Part::WildPair | Part::WildBook => Kind::WildBook,
            Part::WildQuestion => Kind::WildQuestion,
            Part::Edge => Kind::Edge,
            Part::NoBasis | Part::DamagedQuestion => Kind::DamagedQuestion,
            Part::NoPair | Part::NeitherRight | Part::NoBook | Part::DamagedBook => Kind::DamagedBook,
        }
    }
}

pub fn draw(rng: &mut Rng, n: usize) -> (Kind, Case) {
    let part = Part::draw(rng);
    (part.kind(), preview(rng, n, part))
}

fn preview(rng: &mut Rng, n: usize, part: Part) -> Case {
    let mut draft = pooled::realistic(rng, n);
    if part == Part::WildBook {
        let i = rng.below(n);
        books::make_wild(rng, &mut draft, i);
    }
    let place = draft.any_pair(rng);
    let mut offered = fitted(rng, &draft, place);
    let mut w = mass::masses(rng, n);
    match part {
        Part::Own => offered = place.map_or(offered, |at| draft.blocks[at]),
        Part::WildPair => make_wild(rng, &draft, &mut offered, None),
        Part::WildAbsent if n > 1 => {
            let absent = offered[rng.pick(&[I, J])] as usize;
            w = mass::without(rng, n, absent);
        }
        Part::Edge if rng.one_in(2) => books::pair_at_the_edge(rng, &mut offered),
        _ => {}
    }
    let task = rng.pick(&TASKS);
    let Ok(opened) = open_book(&copy(&draft, place, &offered).bytes()) else {
        // A wild value that question 5, 8 or 9 refuses.
        let book = draft.bytes();
        let question = Ask::new(task, &w).bytes_for(&book);
        return case(book, offered_to(&draft, offered), question, ANSWER_BYTES);
    };
    let by_mass = opened.molar_masses.is_some() && rng.one_in(2);
    let asked = if by_mass { mass::question } else { questions::with_feed };
    let mut question = asked(rng, &opened, task, &w);
    if part == Part::WildAbsent {
        let t = question.get(TEMPERATURE);
        make_wild(rng, &draft, &mut offered, Some(t));
    }
    let wrong = part == Part::NoPair || (part == Part::NeitherRight && rng.one_in(2));
    let lent = if wrong { spoiled(rng, &draft, offered) } else { offered_to(&draft, offered) };
    let book = spoil(rng, part, &mut draft, place, &mut question);
    case(book, lent, question.question(), question.room)
}

fn case(book: Vec<u8>, offered: Vec<u8>, question: Vec<u8>, room: usize) -> Case {
    Case::With { with: With::Pair, book, question, lent: offered, room }
}

fn is_wilson(draft: &Draft) -> bool {
    draft.blocks[0][MODEL] == WILSON
}

fn rule(draft: &Draft) -> Rule {
    rule_of(&bytes_of(&draft.blocks[0]))
}

fn offered_to(draft: &Draft, offered: Words) -> Vec<u8> {
    sealed_by(rule(draft), offered)
}

/// The book with the offered block at its place.
fn copy(draft: &Draft, place: Option<usize>, offered: &Words) -> Draft {
    let mut copy = draft.clone();
    if let Some(at) = place {
        copy.blocks[at] = *offered;
    }
    copy
}

/// Another pair of the book's model with the same i and j; (0, 1) of a book that has none.
fn fitted(rng: &mut Rng, draft: &Draft, place: Option<usize>) -> Words {
    let [i, j] = place.map_or([0, 1], |at| [I, J].map(|word| draft.blocks[at][word] as usize));
    let (polar, junk) = (rng.one_in(4), rng.junk());
    let mut words = books::pair(rng, i, j, polar, junk);
    if is_wilson(draft) {
        let ln_ratio = rng.range(-1.8, 1.8);
        wilson::enter_pair(rng, &mut words, ln_ratio);
    }
    words
}

/// At the ends of the floats, with a temperature of the question (K) where there is one.
fn make_wild(rng: &mut Rng, draft: &Draft, offered: &mut Words, t: Option<f64>) {
    if is_wilson(draft) {
        wilson::aim(rng, offered, t);
    } else {
        books::wild_pair(rng, offered);
    }
}

/// One thing wrong in an offered block, or two.
pub(super) fn spoiled(rng: &mut Rng, draft: &Draft, mut offered: Words) -> Vec<u8> {
    let which = [1, 1, 2, 2, 7, 7, 8, 8, 9, 9, 9];
    let mut numbers = vec![rng.pick(&which)];
    if rng.one_in(4) {
        numbers.push(rng.pick(&which));
    }
    for number in numbers.iter().filter(|number| **number > 2) {
        spoil_words(rng, draft, &mut offered, *number);
    }
    let mut lent = offered_to(draft, offered);
    if numbers.contains(&2) {
        spoil_check(rng, &mut lent, rule(draft));
    }
    if numbers.contains(&1) {
        let length = rng.pick(&[0, 1, 8, 504, 511, 513, 520, 1023, 1024, 1536]);
        let filler = rng.bits() as u8;
        lent.resize(length, filler);
    }
    lent
}

/// For 7, 8 or 9; a few are right still.
fn spoil_words(rng: &mut Rng, draft: &Draft, words: &mut Words, number: u32) {
    let n = draft.n as u64;
    match number {
        7 => match rng.below(7) {
            0 => words[KIND] = rng.pick(&[0, 1, 2, 4, 1 << 40 | 3, u64::MAX]),
            1 => words[I] = words[J],
            2 => words.swap(I, J),
            3 => words[J] = rng.pick(&[n, n + 1, 8, 255, 1 << 32 | words[J], u64::MAX]),
            4 => words[I] = rng.pick(&[n, u64::MAX, 1 << 32 | words[I]]),
            5 => words[FLAG] = rng.pick(&[2, u64::MAX, 1 << 32 | 1]),
            _ => words[INFERRED] = rng.pick(&[2, u64::MAX, 1 << 32]),
        },
        8 if rng.one_in(6) => {
            words[FLAG] = 0;
            books::put(words, BOUNDS + rng.below(2), numbers::not_finite(rng));
        }
        8 if is_wilson(draft) => wilson::spoil_pair(rng, words),
        _ => books::spoil_pair(rng, words, number),
    }
}

/// A bit, the sum by the other rule, or two neighbours exchanged, which a plain sum lets through.
pub(super) fn spoil_check(rng: &mut Rng, block: &mut [u8], rule: Rule) {
    let mut words = words_of(block);
    match rng.below(4) {
        0 => words[rng.below(64)] ^= 1 << rng.below(64),
        1 | 2 => words[63] = check_of(&words, if rule == Rule::Plain { Rule::Running } else { Rule::Plain }),
        _ => {
            let at = rng.below(62);
            words.swap(at, at + 1);
        }
    }
    block.copy_from_slice(&bytes_of(&words));
}

/// What is wrong, or beside an edge, in book and question; the book's bytes.
fn spoil(
    rng: &mut Rng,
    part: Part,
    draft: &mut Draft,
    place: Option<usize>,
    question: &mut questions::Draft,
) -> Vec<u8> {
    match part {
        // The book's own pair, and nothing else.
        Part::NeitherRight if rng.one_in(2) => {
            let number = rng.pick(&[7, 8, 9]);
            if let Some(at) = place {
                let mut words = draft.blocks[at];
                spoil_words(rng, draft, &mut words, number);
                draft.blocks[at] = words;
            }
        }
        Part::NeitherRight | Part::DamagedBook => return books::spoiled(rng, draft),
        // Beside another no, at times.
        Part::NoPair if rng.one_in(4) => mass::damage(rng, question),
        Part::NoBasis => question.words[BASIS] = pooled::no_basis(rng),
        Part::NoBook => pooled::no_book(rng, draft),
        Part::Edge => questions::at_the_edge(rng, question),
        Part::WildQuestion => questions::make_wild(rng, question),
        Part::DamagedQuestion => (0..rng.between(1, 2)).for_each(|_| mass::damage(rng, question)),
        _ => {}
    }
    draft.bytes()
}

/// Blocks of a book, the offered block, a question and its number.
type Asked = (Vec<Words>, Vec<u8>, Ask, u32);

/// Previews at the borders of the offered block's numbers, with theirs; compared before any others.
pub fn borders() -> Vec<(Case, u32)> {
    let asked = |(book, offered, ask, number): Asked| {
        let book = bytes(&book);
        let question = ask.bytes_for(&book);
        (case(book, offered, question, ANSWER_BYTES), number)
    };
    let all = [answers(), lengths(), checks(), places_of_pairs(), words(), orders()].into_iter().flatten().map(asked);
    all.chain([no_room()]).collect()
}

pub fn ask(task: u64) -> Ask {
    mass::ask(task, &[0.3, 0.7]).word(BASIS, BY_MOLES)
}

/// Its last block, which is a pair.
fn last(book: &[Words]) -> Words {
    *book.last().expect("a pair")
}

fn to(book: &[Words], offered: Words) -> Vec<u8> {
    sealed_by(rule_of(&bytes(book)), offered)
}

/// Another pair of either model: τ or a, b (K) are others.
fn another(book: &[Words]) -> Words {
    let mut words = last(book);
    if book[0][MODEL] == WILSON {
        wilson::put_terms(&mut words, &[0.2, -150.0, -0.1, -90.0]);
    } else {
        books::put(&mut words, 3, 0.15);
        books::put(&mut words, 8, 55.0);
    }
    words
}

/// Each task on each kind of book: its own block, and another.
fn answers() -> Vec<Asked> {
    let mut all = Vec::new();
    for book in books_of_two() {
        for task in 1..=9 {
            for offered in [last(&book), another(&book)] {
                all.push((book.clone(), to(&book, offered), ask(task), 0));
                if book[0][1] > 1 {
                    all.push((book.clone(), to(&book, offered), ask(task).word(BASIS, BY_MASS), 0));
                }
            }
        }
    }
    all
}

/// One whole block.
fn lengths() -> Vec<Asked> {
    let book = two();
    let twice = to(&book, another(&book)).repeat(2);
    let of = |length: usize| {
        let number = if length == BLOCK { 0 } else { 1 };
        (book.clone(), twice[..length].to_vec(), ask(2), number)
    };
    [0, 1, 8, 504, 511, 512, 513, 520, 1023, 1024].map(of).to_vec()
}

/// By the book's rule, in each version.
fn checks() -> Vec<Asked> {
    let mut all = Vec::new();
    for book in books_of_two() {
        let third = book[0][1] == 3;
        let words = another(&book);
        for (rule, right) in [(Rule::Plain, !third), (Rule::Running, third)] {
            all.push((book.clone(), sealed_by(rule, words), ask(2), if right { 0 } else { 2 }));
        }
        let mut exchanged = words_of(&to(&book, words));
        exchanged.swap(62, 61);
        let mut one_more = exchanged;
        one_more[63] = one_more[63].wrapping_add(1);
        all.push((book.clone(), bytes_of(&one_more).to_vec(), ask(2), 2));
        // Two unequal neighbours that aren't read.
        exchanged[61] = 1;
        let mut exchanged = words_of(&to(&book, exchanged));
        exchanged.swap(62, 61);
        all.push((book.clone(), bytes_of(&exchanged).to_vec(), ask(2), if third { 2 } else { 0 }));
    }
    all
}

/// i and j of all kinds: three solvents, and one, which has no pair.
fn places_of_pairs() -> Vec<Asked> {
    let three = mass::entered(&[0.018, 0.046, 0.06]);
    let alone = mass::entered(&[0.018]);
    let feed = |task| mass::ask(task, &[0.2, 0.3, 0.5]).word(BASIS, BY_MOLES);
    let one = mass::ask(2, &[1.0]).word(BASIS, BY_MOLES);
    let mut all = Vec::new();
    let places = [0, 1, 2, 3, 7, 8, 1 << 32, 1 << 32 | 1, u64::MAX];
    for i in places {
        for j in places {
            let mut words = another(&three);
            words[1..3].copy_from_slice(&[i, j]);
            let right = i < j && j < 3;
            all.push((three.clone(), to(&three, words), feed(1), if right { 0 } else { 7 }));
            all.push((alone.clone(), to(&alone, words), one, 7));
        }
    }
    all
}

/// NaN in each of the words 0 to 18, flags of 2, and unequal alphas, of both models.
fn words() -> Vec<Asked> {
    let nan = f64::NAN.to_bits();
    let mut all = Vec::new();
    for book in books_of_two() {
        let is_wilson = book[0][MODEL] == WILSON;
        let mut with = |changes: &[(usize, u64)], number: u32| {
            let mut words = last(&book);
            changes.iter().for_each(|(at, word)| words[*at] = *word);
            all.push((book.clone(), to(&book, words), ask(1), number));
        };
        let infinite = f64::INFINITY.to_bits();
        for at in 0..=18 {
            let number = match at {
                0..=2 | 15 | 18 => 7,
                3..=6 => 8,
                7..=14 if !is_wilson => 8,
                _ => 0,
            };
            with(&[(at, nan)], number);
            with(&[(at, infinite)], number);
            if matches!(at, 16 | 17) {
                with(&[(15, 1), (at, nan)], 8);
                with(&[(15, 1), (33 - at, 0), (at, 300.0f64.to_bits())], 0);
            }
        }
        for (at, word) in [(15, 2), (18, 2), (15, 1 << 32), (18, 1 << 63), (0, 2), (0, 4)] {
            with(&[(at, word)], 7);
        }
        for at in 11..=14 {
            with(&[(at, 0.25f64.to_bits())], if is_wilson { 0 } else { 9 });
        }
        with(&[(12, 0), (14, 1 << 63)], 0);
    }
    all
}

/// The book's numbers, then the offered block's 1, 2, 7, 8 and 9, then 11 and on.
fn orders() -> Vec<Asked> {
    let nan = f64::NAN.to_bits();
    let book = two();
    let with = |block: usize, at: usize, word: u64| {
        let mut blocks = two();
        blocks[block][at] = word;
        blocks
    };
    // An offered block with all of 7, 8 and 9; then without 7; then 9 alone.
    let mut wrong = [last(&book); 3];
    wrong.iter_mut().for_each(|words| words[11] = 0);
    wrong[0][3] = nan;
    wrong[1][3] = nan;
    wrong[0][18] = 2;
    let no_question = ask(2).word(0, 7);
    let mut all: Vec<Asked> =
        [(0, 7), (1, 8), (2, 9)].map(|(k, number)| (two(), to(&book, wrong[k]), no_question, number)).to_vec();
    let mut unsealed = to(&book, wrong[0]);
    unsealed[511] ^= 1;
    all.push((two(), unsealed.clone(), no_question, 2));
    unsealed.push(0);
    all.push((two(), unsealed, no_question, 1));
    // The book's own come first, those of the pair with that i and j too.
    for (blocks, number) in [
        (with(0, 1, 4), 38),
        (with(0, MODEL, 2), 37),
        (with(1, 2, 0), 4),
        (with(2, 2, 1000), 6),
        (with(3, 15, 2), 7),
        (with(3, 4, nan), 8),
        (with(3, 11, 0), 9),
    ] {
        for offered in [Vec::new(), to(&book, wrong[0]), to(&book, last(&book))] {
            all.push((blocks.clone(), offered, no_question, number));
        }
    }
    let right = || to(&book, another(&book));
    all.push((two(), right(), no_question, 11));
    all.push((two(), right(), ask(10), 12));
    all.push((two(), right(), ask(2).word(BASIS, 2), 36));
    all.push((two(), right(), ask(2).at(0.0), 13));
    all.push((two(), right(), ask(3).limits(0), 20));
    // 24 of the offered block alone, and of the book's own.
    let mut negative = last(&book);
    books::put_alphas(&mut negative, -1.0, 0.0);
    all.push((two(), to(&book, negative), ask(1), 24));
    let mut blocks = two();
    blocks[3] = negative;
    all.push((blocks.clone(), right(), ask(1), 0));
    all.push((blocks, to(&book, negative), ask(1), 24));
    all
}

/// 10 after the offered block's, ahead of 11.
fn no_room() -> (Case, u32) {
    let book = two();
    (case(bytes(&book), to(&book, last(&book)), Vec::new(), ANSWER_BYTES - 1), 10)
}
