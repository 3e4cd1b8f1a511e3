//! Calls with many feeds: on books of both models and all versions, refusals among answers, questions and books damaged in each way;
//! and those at the borders of 33, 10, 11, 12 and 36.

use super::books::{self, Draft};
use super::cases::Kind;
use super::feeds::{self, Absent};
use super::mass;
use super::pooled::{self, books_of_two, how_many, two, LENGTHS};
use super::small::{bytes, Ask};
use super::{numbers, questions, Rng};
use crate::sheet::blocks::Words;
use crate::sheet::book::{MODEL, MOLAR_MASS};
use crate::sheet::feeds::{bytes_of_feeds, FEED, TASKS};
use crate::sheet::question::{BASIS, BY_MASS, TASK};
use crate::sheet::{open_book, ANSWER_BYTES};
use crate::stage::{padded, Case};
use crate::with::With;

type Feed = [f64; 8];

/// Tasks of the calls: those with solvers come twice as often.
const OFTEN: [u64; 9] = [1, 2, 2, 3, 3, 6, 6, 7, 7];
/// Tasks that no call with feeds takes.
const NO_TASK: [u64; 12] = [4, 5, 8, 9, 4, 5, 8, 9, 0, 10, 1 << 32 | 1, u64::MAX];
/// Numbers of a question whose fractions aren't read.
const DAMAGES: [u32; 9] = [11, 12, 13, 14, 19, 20, 21, 22, 23];

/// What is particular about a call.
#[derive(Debug, Clone, Copy, PartialEq, Eq)]
enum Part {
    Plain,
    /// Extreme data of a solvent that is absent from all feeds, or from some.
    WildAbsent,
    WildBook,
    WildQuestion,
    /// Moles of feeds by mass that overflow, or nearly.
    Overflow,
    /// No feed, more than 64, or one cut short.
    NoFeeds,
    /// Too few bytes for the answers.
    NoRoom,
    NoTask,
    NoBasis,
    /// A version, a model or a molar mass that is none.
    NoBook,
    Edge,
    DamagedQuestion,
    DamagedBook,
}

impl Part {
    fn draw(rng: &mut Rng) -> Self {
        match rng.below(100) {
            0..=48 => Part::Plain,
            49..=58 => Part::WildAbsent,
            59..=61 => Part::WildBook,
            62..=63 => Part::WildQuestion,
            64..=66 => Part::Overflow,
            67..=71 => Part::NoFeeds,
            72..=76 => Part::NoRoom,
            77..=80 => Part::NoTask,
            81..=83 => Part::NoBasis,
            84..=85 => Part::NoBook,
            86..=89 => Part::Edge,
            90..=95 => Part::DamagedQuestion,
            _ => Part::DamagedBook,
        }
    }

    fn kind(self) -> Kind {
        match self {
            Part::Plain => Kind::Realistic,
            Part::WildAbsent => Kind::WildAbsent,
            Part::WildBook | Part::Overflow => Kind::WildBook,
            Part::WildQuestion => Kind::WildQuestion,
            Part::Edge => Kind::Edge,
            Part::NoBook | Part::DamagedBook => Kind::DamagedBook,
            _ => Kind::DamagedQuestion,
        }
    }
}

pub fn draw(rng: &mut Rng, n: usize) -> (Kind, Case) {
    let part = Part::draw(rng);
    (part.kind(), call(rng, n, part))
}

fn call(rng: &mut Rng, n: usize, part: Part) -> Case {
    let mut draft = pooled::realistic(rng, n);
    let victim = rng.below(n);
    let mut w = mass::masses(rng, n);
    match part {
        Part::WildAbsent => {
            pooled::make_extreme(rng, &mut draft, victim);
            w = lacking(rng, n, victim);
        }
        Part::WildBook => books::make_wild(rng, &mut draft, victim),
        Part::Overflow => {
            if draft.blocks[0][1] == 1 {
                mass::enter(rng, &mut draft);
            }
            mass::overflow(rng, &mut draft, &w);
        }
        Part::Edge if rng.one_in(3) => books::at_the_edge(rng, &mut draft),
        _ => {}
    }
    let m = how_many(rng);
    let absent = (part == Part::WildAbsent && rng.percent(70)).then_some(victim);
    let mut feeds = several(rng, n, m, &w, absent);
    let task = rng.pick(&OFTEN);
    let right = draft.bytes();
    let Ok(opened) = open_book(&right) else {
        // A wild value that question 5, 8 or 9 refuses.
        return case(right.clone(), Ask::new(task, &w).bytes_for(&right), feeds, m * ANSWER_BYTES);
    };
    let by_mass = opened.molar_masses.is_some() && (part == Part::Overflow || rng.one_in(2));
    let asked = if by_mass { mass::question } else { questions::with_feed };
    let mut question = asked(rng, &opened, task, &w);
    let book = spoil(rng, part, &mut draft, &mut question);
    pooled::fill_unread(rng, &mut question);
    let mut room = question.room + (m - 1) * ANSWER_BYTES;
    match part {
        Part::NoRoom => room = no_room(rng, m),
        Part::NoFeeds => {
            pooled::no_drums(rng, &mut feeds);
            room = rng.pick(&[0, room, ANSWER_BYTES * feeds.len().div_ceil(FEED).min(70)]);
        }
        _ => {}
    }
    case(book, question.question(), feeds, room)
}

fn case(book: Vec<u8>, question: Vec<u8>, feeds: Vec<u8>, room: usize) -> Case {
    Case::With { with: With::Feeds, book, question, lent: feeds, room }
}

/// What is wrong, or beside an edge, in book and question; the book's bytes.
fn spoil(rng: &mut Rng, part: Part, draft: &mut Draft, question: &mut questions::Draft) -> Vec<u8> {
    match part {
        // Beside another no, at times.
        Part::NoFeeds | Part::NoRoom if rng.one_in(4) => damage(rng, question),
        Part::NoTask => {
            question.words[TASK] = rng.pick(&NO_TASK);
            match rng.below(6) {
                0 => question.words[BASIS] = pooled::no_basis(rng),
                1 => damage(rng, question),
                _ => {}
            }
        }
        Part::NoBasis => {
            let first = draft.blocks[0][1] == 1;
            question.words[BASIS] = if first { pooled::no_basis(rng) } else { mass::neither(rng) };
            if rng.one_in(4) {
                damage(rng, question);
            }
        }
        Part::NoBook => pooled::no_book(rng, draft),
        Part::Edge => questions::at_the_edge(rng, question),
        Part::WildQuestion => questions::make_wild(rng, question),
        Part::DamagedQuestion => (0..rng.between(1, 2)).for_each(|_| damage(rng, question)),
        Part::DamagedBook => return books::spoiled(rng, draft),
        _ => {}
    }
    draft.bytes()
}

fn damage(rng: &mut Rng, question: &mut questions::Draft) {
    let number = rng.pick(&DAMAGES);
    questions::damage(rng, question, number);
}

/// Fewer bytes than m answers need.
pub(super) fn no_room(rng: &mut Rng, m: usize) -> usize {
    let least = m * ANSWER_BYTES;
    match rng.below(6) {
        0 | 1 => least - 1,
        2 => least - ANSWER_BYTES,
        3 => least - 512,
        4 => rng.pick(&[0, 1, 512, 512 * m, ANSWER_BYTES - 1]),
        _ => rng.below(least),
    }
}

fn lacking(rng: &mut Rng, n: usize, i: usize) -> Vec<f64> {
    if n == 1 {
        return vec![1.0];
    }
    mass::without(rng, n, i)
}

/// m feeds, the first of them at any place; of all the others so many in a hundred may be refused; anything behind n.
fn several(rng: &mut Rng, n: usize, m: usize, first: &[f64], absent: Option<usize>) -> Vec<u8> {
    let bad = rng.pick(&[0, 0, 10, 30, 100]);
    let mut all: Vec<Feed> = Vec::with_capacity(m);
    for _ in 0..m {
        let earlier = if all.is_empty() { None } else { Some(all[rng.below(all.len())]) };
        let feed = match (rng.below(12), earlier, absent) {
            (0, Some(earlier), _) => earlier,
            _ if rng.percent(bad) => feeds::any(rng, n),
            (1, ..) if n > 1 => trace(rng, n),
            (_, _, Some(i)) => padded(&lacking(rng, n, i)),
            (2..=3, ..) => padded(&feeds::feed_with(rng, n, Absent::AllButOne)),
            _ => padded(&mass::masses(rng, n)),
        };
        all.push(feed);
    }
    let place = rng.below(m);
    all[place][..n].copy_from_slice(first);
    fill_behind(rng, &mut all, n);
    bytes_of_feeds(&all)
}

/// One solvent near the smallest floats.
fn trace(rng: &mut Rng, n: usize) -> Feed {
    let i = rng.below(n);
    let mut x = padded(&mass::without(rng, n, i));
    x[i] = f64::from_bits(rng.bits() >> rng.between(12, 63));
    x
}

/// Entries that are not read.
fn fill_behind(rng: &mut Rng, feeds: &mut [Feed], n: usize) {
    let kind = rng.below(3);
    for v in feeds.iter_mut().flat_map(|feed| &mut feed[n..]) {
        *v = match kind {
            0 => 0.0,
            1 => numbers::not_finite(rng),
            _ => numbers::any_bits(rng),
        };
    }
}

/// Blocks of a book, a question, feeds and room; the number that ends the call, or that of each feed.
type Asked = (Vec<Words>, Ask, Vec<Feed>, usize, Result<Vec<u32>, u32>);

/// Calls at the borders of 33, 10, 11, 12 and 36, with their numbers; compared before any others.
pub fn borders() -> Vec<(Case, Result<Vec<u32>, u32>)> {
    let asked = |(book, ask, feeds, room, numbers): Asked| {
        let book = bytes(&book);
        let question = ask.bytes_for(&book);
        (case(book, question, bytes_of_feeds(&feeds), room), numbers)
    };
    let all = [answers(), mixed(), tasks(), places(), rooms()].into_iter().flatten().map(asked);
    all.chain(lengths()).chain(questions_as_sent()).collect()
}

/// Fractions that no plain call takes: those of the question aren't read.
pub fn ask(task: u64) -> Ask {
    pooled::ask(task)
}

/// A feed from its first entries; behind them NaN, which is not read.
pub fn feed(x: &[f64]) -> Feed {
    std::array::from_fn(|i| x.get(i).copied().unwrap_or(f64::NAN))
}

/// Two solvents.
fn some(m: usize) -> Vec<Feed> {
    (0..m).map(|k| feed(&[[0.3, 0.7], [0.5, 0.5], [0.0, 1.0], [1.0, -0.0]][k % 4])).collect()
}

fn asked(book: Vec<Words>, ask: Ask, feeds: Vec<Feed>, numbers: &[u32]) -> Asked {
    let room = feeds.len() * ANSWER_BYTES;
    (book, ask, feeds, room, Ok(numbers.to_vec()))
}

/// Each task on each kind of book, by moles and, where there are molar masses, by mass.
fn answers() -> Vec<Asked> {
    let mut all = Vec::new();
    for book in books_of_two() {
        for task in TASKS {
            for m in [1, 2, 64] {
                all.push(asked(book.clone(), ask(task), some(m), &vec![0; m]));
            }
            if book[0][1] > 1 {
                all.push(asked(book.clone(), ask(task).word(BASIS, BY_MASS), some(4), &[0; 4]));
            }
        }
    }
    all
}

/// Refused feeds among answers: 15, 16, 18, by mass 34; a model that has no answer (24) is met after them.
fn mixed() -> Vec<Asked> {
    let right = feed(&[0.3, 0.7]);
    let wrong = [
        (feed(&[f64::NAN, 1.0]), 15),
        (feed(&[f64::INFINITY, 0.0]), 15),
        (feed(&[1.3, -0.3]), 16),
        (feed(&[0.5, 0.5000000002]), 18),
        (feed(&[0.0, -0.0]), 18),
    ];
    let mut flat = two();
    books::put_alphas(&mut flat[3], -1.0, 0.0);
    let mut light = two();
    books::put(&mut light[1], MOLAR_MASS, f64::from_bits(1));
    let mut all = Vec::new();
    for task in TASKS {
        for (feed, number) in wrong {
            all.push(asked(two(), ask(task), vec![feed], &[number]));
            all.push(asked(two(), ask(task), vec![right, feed, right], &[0, number, 0]));
            all.push(asked(two(), ask(task), vec![feed, right, feed], &[number, 0, number]));
            all.push(asked(flat.clone(), ask(task), vec![feed, right, feed], &[number, 24, number]));
        }
        let both = vec![feed(&[0.0, 1.0]), right, feed(&[-0.0, 1.0])];
        all.push(asked(light.clone(), ask(task).word(BASIS, BY_MASS), both.clone(), &[0, 34, 0]));
        all.push(asked(light.clone(), ask(task), both, &[0; 3]));
        // Exactly 64, half of them refused.
        let halves: Vec<Feed> = (0..64).map(|k| if k % 2 == 0 { right } else { wrong[0].0 }).collect();
        all.push(asked(two(), ask(task), halves, &[0, 15].repeat(32)));
    }
    all
}

/// 12 of the tasks that take another temperature or K, and of those that are none.
fn tasks() -> Vec<Asked> {
    let others = [0, 4, 5, 8, 9, 10, 256, 1 << 32 | 7, u64::MAX];
    let mut all: Vec<Asked> = others.map(|task| asked(two(), ask(task), some(3), &[12; 3])).to_vec();
    all.push(asked(two(), ask(4).word(BASIS, 2).at(-1.0), vec![feed(&[f64::NAN])], &[12]));
    all
}

/// The book's numbers, 33 and 10 in order; then 12, 36, 13, 14, 15 and 19 to 22 of each feed.
fn places() -> Vec<Asked> {
    let mut no_version = two();
    no_version[0][1] = 4;
    let mut no_mass = two();
    books::put(&mut no_mass[2], MOLAR_MASS, 0.0);
    let mut no_model = two();
    no_model[0][MODEL] = 2;
    let mut no_alpha = two();
    no_alpha[3][11] ^= 1;
    let mut first = two();
    first[0][1] = 1;
    let by_mass = |task| ask(task).word(BASIS, BY_MASS);
    let nan = || vec![feed(&[f64::NAN, 0.0]), feed(&[0.3, 0.7])];
    let mut all = vec![
        (no_version, ask(2), Vec::new(), 0, Err(38)),
        (no_mass, ask(2), Vec::new(), 0, Err(35)),
        (no_model, ask(2), Vec::new(), 0, Err(37)),
        (no_alpha, ask(2), some(65), 0, Err(9)),
        (two(), ask(2), Vec::new(), 0, Err(33)),
        (two(), ask(2), some(65), 65 * ANSWER_BYTES, Err(33)),
        (two(), ask(2).word(0, 7), some(2), 2 * ANSWER_BYTES - 1, Err(10)),
        asked(first.clone(), by_mass(2).at(0.0), nan(), &[36; 2]),
        asked(first, ask(2), nan(), &[15, 0]),
        asked(two(), by_mass(2).at(0.0), nan(), &[13; 2]),
        asked(two(), ask(7).at(0.0).under(0.0), nan(), &[13; 2]),
        asked(two(), ask(7).under(0.0), nan(), &[14; 2]),
        asked(two(), ask(3).under(0.0), nan(), &[15, 0]),
        asked(two(), ask(2).at(273.15), nan(), &[15, 22]),
    ];
    for word in mass::NEITHER {
        all.push(asked(two(), ask(1).word(BASIS, word).at(-1.0), nan(), &[36; 2]));
    }
    for task in [3, 6, 7] {
        all.push(asked(two(), ask(task).float(13, 1.0), nan(), &[15, 19]));
        all.push(asked(two(), ask(task).limits(0), nan(), &[15, 20]));
        all.push(asked(two(), ask(task).limits(1_000_001), nan(), &[15, 21]));
    }
    all
}

/// 4,608 bytes for each feed, and one less.
fn rooms() -> Vec<Asked> {
    let mut all = Vec::new();
    for m in [1, 2, 63, 64] {
        let least = m * ANSWER_BYTES;
        for room in [0, 1, ANSWER_BYTES - 1, least - ANSWER_BYTES, least - 512, least - 1, least, least + 1] {
            let numbers = if room < least { Err(10) } else { Ok(vec![0; m]) };
            all.push((two(), ask(2), some(m), room, numbers));
        }
    }
    all
}

/// 33, whatever room there is.
fn lengths() -> Vec<(Case, Result<Vec<u32>, u32>)> {
    let of = |(length, right): (usize, bool)| {
        let mut feeds = bytes_of_feeds(&some(1024));
        feeds.truncate(length);
        let m = length / FEED;
        let book = bytes(&two());
        let numbers = if right { Ok(vec![0; m]) } else { Err(33) };
        let question = ask(1).bytes_for(&book);
        (case(book, question, feeds, m.clamp(1, 66) * ANSWER_BYTES), numbers)
    };
    LENGTHS.map(of).to_vec()
}

/// 11: every feed has it, whatever the feed.
fn questions_as_sent() -> Vec<(Case, Result<Vec<u32>, u32>)> {
    let mut all = Vec::new();
    for book in books_of_two() {
        let book = bytes(&book);
        let right = ask(1).bytes_for(&book);
        let mut wrong = right.clone();
        // A fraction, which is under the check alone.
        wrong[8 * 5] ^= 1;
        let long = [&right[..], &[0]].concat();
        let kind = ask(1).word(0, 9).bytes_for(&book);
        let other = ask(1).bytes_for(&[]);
        let plain = other == right;
        let feeds = || bytes_of_feeds(&[feed(&[0.3, 0.7]), feed(&[f64::NAN, 0.7]), feed(&[0.3, 0.7])]);
        for question in [wrong, long, kind, right[..511].to_vec(), Vec::new()] {
            all.push((case(book.clone(), question, feeds(), 3 * ANSWER_BYTES), Ok(vec![11; 3])));
        }
        let numbers = if plain { vec![0, 15, 0] } else { vec![11; 3] };
        all.push((case(book, other, feeds(), 3 * ANSWER_BYTES), Ok(numbers)));
    }
    all
}
