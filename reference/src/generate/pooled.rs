//! Sheets with drums: pools of all sizes on books of both models and all versions, drums that are none, totals that are none or wrap;
//! and those at the borders of 31, 32 and 36.

use super::books::{self, put, Draft};
use super::cases::{Kind, TASKS};
use super::mass::{self, neither};
use super::small::{bytes, Ask};
use super::{numbers, questions, wilson, Rng};
use crate::sheet::blocks::Words;
use crate::sheet::book::{MODEL, MOLAR_MASS, WILSON};
use crate::sheet::pool::{self, bytes_of, Drum, DRUM, MOST, MOST_DRUMS};
use crate::sheet::question::{BASIS, BY_MASS, BY_MOLES, FRACTIONS};
use crate::sheet::{open_book, ANSWER_BYTES};
use crate::stage::Case;
use crate::with::With;

/// Micromoles that a pool may hold at most.
const FULL: u64 = MOST as u64;

/// Versions that are none.
const NO_VERSION: [u64; 6] = [0, 4, 5, 1 << 32 | 1, 1 << 63 | 3, u64::MAX];

/// What is particular about a sheet.
#[derive(Debug, Clone, Copy, PartialEq, Eq)]
enum Part {
    /// 1e3 to 1e9 micromoles of each solvent, in a fifth 1e9 to 1e14.
    Plain,
    /// A few micromoles, or one.
    Few,
    /// A total up to 2^53, in half of them that.
    Large,
    /// Extreme data of a solvent that is in no drum.
    WildAbsent,
    WildBook,
    WildQuestion,
    /// No drum, more than 64, or one cut short.
    NoDrums,
    /// A total of 0 or above 2^53.
    NoPool,
    /// A word 27 that is not 0.
    NoBasis,
    /// A version, a model or a molar mass that is none.
    NoBook,
    Edge,
    DamagedQuestion,
    DamagedBook,
}

impl Part {
    fn draw(rng: &mut Rng) -> Self {
        match rng.below(100) {
            0..=43 => Part::Plain,
            44..=49 => Part::Few,
            50..=58 => Part::Large,
            59..=69 => Part::WildAbsent,
            70 => Part::WildBook,
            71..=72 => Part::WildQuestion,
            73..=77 => Part::NoDrums,
            78..=83 => Part::NoPool,
            84..=87 => Part::NoBasis,
            88..=89 => Part::NoBook,
            90..=92 => Part::Edge,
            93..=96 => Part::DamagedQuestion,
            _ => Part::DamagedBook,
        }
    }

    fn kind(self) -> Kind {
        match self {
            Part::Plain | Part::Few | Part::Large => Kind::Realistic,
            Part::WildAbsent => Kind::WildAbsent,
            Part::WildBook => Kind::WildBook,
            Part::WildQuestion => Kind::WildQuestion,
            Part::Edge => Kind::Edge,
            Part::NoDrums | Part::NoPool | Part::NoBasis | Part::DamagedQuestion => Kind::DamagedQuestion,
            Part::NoBook | Part::DamagedBook => Kind::DamagedBook,
        }
    }
}

pub fn draw(rng: &mut Rng, n: usize) -> (Kind, Case) {
    let part = Part::draw(rng);
    (part.kind(), sheet(rng, n, part))
}

fn sheet(rng: &mut Rng, n: usize, part: Part) -> Case {
    let mut draft = realistic(rng, n);
    let victim = rng.below(n);
    let mut counts = counts(rng, n, part);
    match part {
        Part::WildAbsent => make_absent(rng, &mut draft, &mut counts, victim),
        Part::WildBook => books::make_wild(rng, &mut draft, victim),
        Part::Edge if rng.one_in(3) => books::at_the_edge(rng, &mut draft),
        _ => {}
    }
    let task = rng.pick(&TASKS);
    let right = draft.bytes();
    let Ok(opened) = open_book(&right) else {
        // A wild value that question 5, 8 or 9 refuses.
        let question = Ask::new(task, &[1.0]).bytes_for(&right);
        return case(right, question, drums(rng, &counts), ANSWER_BYTES);
    };
    let x = pool::feed(&counts).expect("a total from 1 to 2^53");
    let mut question = questions::with_feed(rng, &opened, task, &x);
    let own: Vec<f64> = (0..n).map(|i| question.get(FRACTIONS + i)).collect();
    if own != x {
        // Tasks 8 and 9 have drawn a feed of their own.
        counts = nearest(&own);
    }
    let mut drums = drums(rng, &counts);
    match part {
        Part::NoDrums => no_drums(rng, &mut drums),
        Part::NoPool => drums = no_pool(rng, n, drums),
        _ => {}
    }
    let book = spoil(rng, part, &mut draft, &mut question);
    fill_unread(rng, &mut question);
    case(book, question.question(), drums, question.room)
}

fn case(book: Vec<u8>, question: Vec<u8>, drums: Vec<u8>, room: usize) -> Case {
    Case::With { with: With::Drums, book, question, lent: drums, room }
}

/// What is wrong, or beside an edge, in book and question; the book's bytes.
fn spoil(rng: &mut Rng, part: Part, draft: &mut Draft, question: &mut questions::Draft) -> Vec<u8> {
    match part {
        // Beside another no, at times.
        Part::NoDrums | Part::NoPool => match rng.below(8) {
            0 => question.words[BASIS] = no_basis(rng),
            1 => mass::damage(rng, question),
            _ => {}
        },
        Part::NoBasis => {
            question.words[BASIS] = no_basis(rng);
            if rng.one_in(4) {
                mass::damage(rng, question);
            }
        }
        Part::NoBook => no_book(rng, draft),
        Part::Edge => questions::at_the_edge(rng, question),
        Part::WildQuestion => questions::make_wild(rng, question),
        Part::DamagedQuestion => (0..rng.between(1, 2)).for_each(|_| mass::damage(rng, question)),
        Part::DamagedBook => return books::spoiled(rng, draft),
        _ => {}
    }
    draft.bytes()
}

/// A book of either model, of any version that has it.
pub(super) fn realistic(rng: &mut Rng, n: usize) -> Draft {
    if rng.percent(40) {
        return wilson::realistic(rng, n);
    }
    let mut draft = books::realistic(rng, n);
    let version = rng.pick(&[1, 2, 3]);
    if version > 1 {
        mass::enter(rng, &mut draft);
        draft.blocks[0][1] = version;
    }
    draft
}

/// Micromoles of each solvent in the pool; seven pools of ten may lack solvents.
fn counts(rng: &mut Rng, n: usize, part: Part) -> Vec<u64> {
    let kept = rng.below(n);
    let lacking = rng.percent(70);
    let gone: Vec<bool> = (0..n).map(|i| i != kept && lacking && rng.percent(50)).collect();
    let pick = |rng: &mut Rng, i: usize, low: f64, high: f64| if gone[i] { 0 } else { rng.decade(low, high) as u64 };
    match part {
        Part::Few if rng.one_in(4) => (0..n).map(|i| u64::from(i == kept)).collect(),
        Part::Few => (0..n).map(|i| pick(rng, i, 0.0, 1.0)).collect(),
        Part::Large => {
            let total = if rng.one_in(2) { FULL } else { FULL - rng.bits() % (1 << rng.between(1, 50)) };
            let low = rng.pick(&[0.0, 9.0, 14.0]);
            let weights: Vec<u64> = (0..n).map(|i| pick(rng, i, low, 15.0)).collect();
            filled(weights, kept, total)
        }
        _ => {
            let [low, high] = rng.pick(&[[3.0, 9.0], [3.0, 9.0], [6.0, 9.0], [8.0, 9.0], [9.0, 14.0]]);
            (0..n).map(|i| pick(rng, i, low, high)).collect()
        }
    }
}

/// The counts with that of one solvent such that the total is as it is given; seven others are less than that.
fn filled(mut counts: Vec<u64>, rest: usize, total: u64) -> Vec<u64> {
    counts[rest] = 0;
    counts[rest] = total - counts.iter().sum::<u64>();
    counts
}

/// Of mole fractions, to the nearest of 2^52 parts.
fn nearest(x: &[f64]) -> Vec<u64> {
    x.iter().map(|v| (v * (FULL / 2) as f64).round() as u64).collect()
}

/// Takes a solvent out of every drum, where there is another, and makes its data extreme.
fn make_absent(rng: &mut Rng, draft: &mut Draft, counts: &mut [u64], i: usize) {
    if counts.len() == 1 {
        return;
    }
    counts[i] = 0;
    if counts.iter().all(|count| *count == 0) {
        counts[(i + 1) % counts.len()] = 1 + rng.bits() % 1_000_000;
    }
    make_extreme(rng, draft, i);
}

/// Data of a solvent at the ends of the floats, as the book's model has them.
pub(super) fn make_extreme(rng: &mut Rng, draft: &mut Draft, i: usize) {
    if draft.blocks[0][MODEL] == WILSON && rng.percent(70) {
        for at in draft.pairs_of(i) {
            wilson::aim(rng, &mut draft.blocks[at], None);
        }
    } else {
        books::make_wild(rng, draft, i);
    }
    if draft.blocks[0][1] > 1 {
        put(&mut draft.blocks[1 + i], MOLAR_MASS, mass::any_mass(rng));
    }
}

/// Drums that pool to the counts; anything behind them.
fn drums(rng: &mut Rng, counts: &[u64]) -> Vec<u8> {
    let m = how_many(rng);
    shared_out(rng, counts, m)
}

/// Of drums or feeds, 1 to 64.
pub(super) fn how_many(rng: &mut Rng) -> usize {
    match rng.below(10) {
        0..=2 => 1,
        3..=6 => rng.between(2, 6),
        7 => MOST_DRUMS,
        _ => rng.between(1, MOST_DRUMS),
    }
}

/// Over m drums.
pub fn shared_out(rng: &mut Rng, counts: &[u64], m: usize) -> Vec<u8> {
    let mut drums = vec![[0; 8]; m];
    for (i, count) in counts.iter().enumerate() {
        share(rng, &mut drums, i, *count);
    }
    fill_behind(rng, &mut drums, counts.len());
    bytes_of(&drums)
}

/// All in one drum, or some in each.
fn share(rng: &mut Rng, drums: &mut [Drum], i: usize, count: u64) {
    let m = drums.len();
    if rng.one_in(4) {
        drums[rng.below(m)][i] = count;
        return;
    }
    let mut left = count;
    for (d, drum) in drums.iter_mut().enumerate() {
        let even = left / (m - d) as u64;
        let part = if rng.one_in(3) { even } else { rng.bits() % (2 * even + 2) };
        drum[i] = if d + 1 == m { left } else { part.min(left) };
        left -= drum[i];
    }
}

/// Counts that are not read.
fn fill_behind(rng: &mut Rng, drums: &mut [Drum], n: usize) {
    let kind = rng.below(4);
    for count in drums.iter_mut().flat_map(|drum| &mut drum[n..]) {
        *count = match kind {
            0 => 0,
            1 => u64::MAX,
            2 => rng.bits() % 1_000_000,
            _ => rng.bits(),
        };
    }
}

/// Another length than that of 1 to 64 drums, or feeds; at times with no right total either.
pub(super) fn no_drums(rng: &mut Rng, drums: &mut Vec<u8>) {
    let longer = |rng: &mut Rng, drums: &mut Vec<u8>, length: usize| {
        let small = rng.one_in(2);
        drums.resize_with(length, || if small { 0 } else { rng.bits() as u8 });
    };
    match rng.below(7) {
        0 => drums.clear(),
        1 => longer(rng, drums, DRUM * (MOST_DRUMS + 1)),
        2 => longer(rng, drums, DRUM * 100),
        3 => drums.truncate(drums.len() - rng.between(1, DRUM - 1)),
        4 => longer(rng, drums, drums.len() + rng.clone().between(1, DRUM - 1)),
        5 => drums.truncate(rng.below(DRUM)),
        _ => longer(rng, drums, DRUM * rng.clone().between(MOST_DRUMS + 1, 300)),
    }
    if rng.one_in(4) {
        let byte = rng.pick(&[0, 255]);
        drums.fill(byte);
    }
}

/// As many drums, with another total; those with several drums or solvents may wrap to a right one.
fn no_pool(rng: &mut Rng, n: usize, right: Vec<u8>) -> Vec<u8> {
    let mut drums: Vec<Drum> = pool::drums_of(&right).collect();
    let m = drums.len();
    let (i, d) = (rng.below(n), rng.below(m));
    // Another drum, or else another solvent; with one of each there is none.
    let (j, e) = if m > 1 { (i, (d + 1) % m) } else { ((i + 1) % n, d) };
    match rng.below(10) {
        0 => drums.iter_mut().for_each(|drum| drum[..n].fill(0)),
        1 | 2 => fill_to(rng, &mut drums, n, FULL + 1),
        3 => {
            let total = FULL + 1 + (rng.bits() >> rng.between(3, 62));
            fill_to(rng, &mut drums, n, total);
        }
        4 => drums[d][i] = u64::MAX,
        5 => drums.iter_mut().flatten().for_each(|count| *count = rng.bits() >> rng.clone().below(8)),
        6 | 7 => {
            // To a small total.
            drums.iter_mut().for_each(|drum| drum[..n].fill(0));
            let one = rng.bits().max(16);
            drums[d][i] = one;
            drums[e][j] = drums[e][j].wrapping_add(rng.below(9) as u64).wrapping_sub(one);
        }
        _ => {
            // To that of the drums as they were.
            drums[d][i] = drums[d][i].wrapping_add(1 << 63);
            drums[e][j] = drums[e][j].wrapping_add(1 << 63);
        }
    }
    bytes_of(&drums)
}

/// Other counts of the first n solvents, of this total.
fn fill_to(rng: &mut Rng, drums: &mut [Drum], n: usize, total: u64) {
    drums.iter_mut().for_each(|drum| drum[..n].fill(0));
    let rest = rng.below(n);
    let parts = (0..n).map(|_| rng.bits() % (total / 8)).collect();
    for (i, count) in filled(parts, rest, total).into_iter().enumerate() {
        share(rng, drums, i, count);
    }
}

pub(super) fn no_basis(rng: &mut Rng) -> u64 {
    if rng.one_in(2) {
        BY_MASS
    } else {
        neither(rng)
    }
}

/// 38, 37 or, from version 2 on, 35.
pub(super) fn no_book(rng: &mut Rng, draft: &mut Draft) {
    let i = rng.below(draft.n);
    match rng.below(3) {
        0 => draft.blocks[0][1] = rng.pick(&NO_VERSION),
        1 => draft.blocks[0][MODEL] = if draft.blocks[0][1] == 1 { WILSON } else { neither(rng) },
        _ => put(&mut draft.blocks[1 + i], MOLAR_MASS, mass::no_mass(rng)),
    }
}

/// Words 4 to 11, which are under the check alone.
pub(super) fn fill_unread(rng: &mut Rng, question: &mut questions::Draft) {
    let kind = rng.below(6);
    for at in FRACTIONS..FRACTIONS + 8 {
        match kind {
            0 => {}
            1 => question.words[at] = 0,
            2 => question.words[at] = rng.bits(),
            3 => question.put(at, numbers::not_finite(rng)),
            4 => question.put(at, numbers::special(rng)),
            _ => question.put(at, numbers::finite(rng)),
        }
    }
}

type Asked = (Vec<Words>, Ask, Vec<u8>, u32);

/// Two solvents, both models, in the versions that have them.
pub(super) fn books_of_two() -> Vec<Vec<Words>> {
    let masses = [0.06009502, 0.018015268];
    let mut all = Vec::new();
    for version in 1..=3 {
        let mut blocks = mass::entered(&masses);
        blocks[0][1] = version;
        all.push(blocks);
        if version > 1 {
            let mut blocks = wilson::entered(&masses, wilson::ALCOHOL);
            blocks[0][1] = version;
            all.push(blocks);
        }
    }
    all
}

pub(super) fn two() -> Vec<Words> {
    mass::entered(&[0.06009502, 0.018015268])
}

/// By moles; fractions that no plain call takes.
pub fn ask(task: u64) -> Ask {
    mass::ask(task, &[2.0, f64::NAN]).word(BASIS, BY_MOLES)
}

/// A drum from its first counts, 0 behind them.
pub fn drum(counts: &[u64]) -> Drum {
    std::array::from_fn(|i| counts.get(i).copied().unwrap_or(0))
}

/// As many drums, of 3 and 5 micromoles and anything behind.
fn some(m: usize) -> Vec<u8> {
    bytes_of(&vec![[3, 5, u64::MAX, 1 << 63, 7, 0, u64::MAX, 1]; m])
}

/// Sheets at the borders of 31, 32 and 36, with their numbers; compared before any others.
pub fn borders() -> Vec<(Case, u32)> {
    let asked = |(book, ask, drums, number): Asked| {
        let book = bytes(&book);
        let question = ask.bytes_for(&book);
        (case(book, question, drums, ANSWER_BYTES), number)
    };
    let cases = [samples(), answers(), lengths(), totals(), wraps(), places()].into_iter().flatten().map(asked);
    cases.chain([no_room()]).collect()
}

/// As the proved ones: two drums that pool to (d) of docs/FORMAT.md, no drum, zeros, and counts that wrap to 1.
fn samples() -> Vec<Asked> {
    let of = |drums: &[Drum], number| {
        let question = Ask::new(8, &[2.0, 2.0]).k(&[2.0, 0.5]);
        (super::small::blocks(&[4e6, 1e6], [0.0, 0.0]), question, bytes_of(drums), number)
    };
    vec![
        of(&[drum(&[3, 1, 7]), drum(&[1, 3])], 0),
        of(&[], 31),
        of(&[drum(&[])], 32),
        of(&[drum(&[u64::MAX]), drum(&[2])], 32),
    ]
}

/// Each task on each kind of book; one solvent of two, alone in either place.
fn answers() -> Vec<Asked> {
    let mut all = Vec::new();
    for book in books_of_two() {
        for task in 1..=9 {
            for m in [1, 2, 64] {
                all.push((book.clone(), ask(task), some(m), 0));
            }
        }
        for task in [1, 2, 7] {
            all.push((book.clone(), ask(task), bytes_of(&[drum(&[1]), drum(&[0, 0, 9])]), 0));
            all.push((book.clone(), ask(task), bytes_of(&[drum(&[0, FULL])]), 0));
        }
    }
    all
}

/// Bytes of 1 to 64 whole drums, or feeds, and beside them; whether a call takes them.
pub(super) const LENGTHS: [(usize, bool); 19] = [
    (0, false),
    (1, false),
    (8, false),
    (16, false),
    (63, false),
    (64, true),
    (65, false),
    (127, false),
    (128, true),
    (129, false),
    (2048, true),
    (4032, true),
    (4095, false),
    (4096, true),
    (4097, false),
    (4159, false),
    (4160, false),
    (6400, false),
    (1 << 16, false),
];

fn lengths() -> Vec<Asked> {
    let mut all = Vec::new();
    for (length, right) in LENGTHS {
        let mut drums = some(1024);
        drums.truncate(length);
        all.push((two(), ask(8), drums, if right { 0 } else { 31 }));
    }
    all
}

/// Of one count, of two solvents, of two and of 64 drums.
fn totals() -> Vec<Asked> {
    let mut all = Vec::new();
    let mut of = |drums: &[Drum], number| all.push((two(), ask(8), bytes_of(drums), number));
    for total in [0, 1, 2, FULL - 1, FULL, FULL + 1, FULL + 2, 1 << 54, 1 << 63, u64::MAX - 1, u64::MAX] {
        let number = if (1..=FULL).contains(&total) { 0 } else { 32 };
        let half = total / 2;
        of(&[drum(&[total])], number);
        of(&[drum(&[0, total, 1])], number);
        of(&[drum(&[half, total - half, u64::MAX])], number);
        of(&[drum(&[half]), drum(&[total - half])], number);
        of(&[drum(&[0, half]), drum(&[total - half])], number);
        let mut many = [drum(&[0, 0, 0, 0, 0, 0, 0, u64::MAX]); MOST_DRUMS];
        (0..MOST_DRUMS).for_each(|d| many[d][d % 2] = total / 64);
        many[63][1] += total % 64;
        of(&many, number);
    }
    of(&[drum(&[FULL, FULL])], 32);
    of(&[drum(&[FULL, 0]); 64], 32);
    all
}

/// Totals of 2^64 and more that are right modulo 2^64.
fn wraps() -> Vec<Asked> {
    let mut all = Vec::new();
    let mut of = |drums: &[Drum]| all.push((two(), ask(8), bytes_of(drums), 32));
    for small in [0, 1, 2, 1000, FULL, FULL + 1] {
        of(&[drum(&[1 << 63]), drum(&[(1 << 63) + small])]);
        of(&[drum(&[1 << 63, (1 << 63) + small])]);
        of(&[drum(&[0, u64::MAX]), drum(&[1 + small])]);
        of(&[drum(&[u64::MAX]), drum(&[1]), drum(&[0, small])]);
        let mut many = [drum(&[1 << 58]); MOST_DRUMS];
        many[0][0] += small;
        of(&many);
        let mut many = [drum(&[0, 1 << 59]); MOST_DRUMS];
        many[63][0] += small;
        of(&many);
    }
    all
}

/// 31 after 12, then 32, 36 and 13; 15 of K alone.
fn places() -> Vec<Asked> {
    let none = Vec::new;
    let zeros = || bytes_of(&[drum(&[])]);
    let mut no_version = two();
    no_version[0][1] = 4;
    let mut no_mass = two();
    put(&mut no_mass[2], MOLAR_MASS, 0.0);
    let mut first = two();
    first[0][1] = 1;
    let mut all = vec![
        (no_version, ask(2), none(), 38),
        (no_mass, ask(2), none(), 35),
        (two(), ask(2).word(0, 7), none(), 11),
        (two(), ask(0), none(), 12),
        (two(), ask(10), zeros(), 12),
        (two(), ask(2).word(BASIS, BY_MASS), none(), 31),
        (two(), ask(2).word(BASIS, BY_MASS), zeros(), 32),
        (two(), ask(2).at(0.0), none(), 31),
        (two(), ask(2).at(0.0), zeros(), 32),
        (two(), ask(2).at(0.0).word(BASIS, BY_MASS), some(3), 36),
        (two(), ask(2).at(0.0), some(3), 13),
        (two(), ask(4).under(-1.0), some(3), 14),
        (first, ask(2).word(BASIS, BY_MASS), some(3), 36),
        (two(), ask(3).float(13, 1.0), some(3), 19),
        (two(), ask(3).limits(0), some(3), 20),
        (two(), ask(3).limits(1_000_001), some(3), 21),
    ];
    for word in mass::NEITHER {
        all.push((two(), ask(8).word(BASIS, word), some(1), 36));
    }
    for task in 1..=9 {
        all.push((two(), ask(task).word(BASIS, BY_MASS), some(64), 36));
        let split = task > 7;
        all.push((two(), ask(task).k(&[f64::NAN, 2.0]), some(2), if split { 15 } else { 0 }));
        all.push((two(), ask(task).k(&[2.0, 0.0]), some(2), if split { 17 } else { 0 }));
        // Behind n.
        all.push((two(), ask(task).k(&[2.0, 0.5, f64::NAN]), some(2), 0));
    }
    all
}

/// 10 ahead of 11 and 31.
fn no_room() -> (Case, u32) {
    (case(bytes(&two()), Vec::new(), Vec::new(), ANSWER_BYTES - 1), 10)
}
