//! Queues of flash questions: on books of both models and all versions, refusals of every number among answers, allowances at what is
//! asked for and at what is taken; and those at the borders of 39, 10 and the allowance. Flashes that begin as many evaluations as any
//! can.

use super::batches;
use super::books::{self, put, Draft};
use super::cases::Kind;
use super::feeds::{self, Absent};
use super::mass;
use super::pooled::{self, books_of_two, how_many, two};
use super::small::{blocks, bytes, sealed_by, Ask};
use super::{questions, small, Rng};
use crate::evaluations::counted;
use crate::sheet::blocks::{bytes_of, rule_of, words_of, Rule, Words, BLOCK};
use crate::sheet::book::{MODEL, MOLAR_MASS, WILSON};
use crate::sheet::question::{BASIS, BY_MASS, FRACTIONS, MAX_ITERATIONS, TASK};
use crate::sheet::queue::Due::{self, Answered, PutOff, Refused};
use crate::sheet::queue::{most_of, FLASH, MOST_QUESTIONS};
use crate::sheet::{self, open_book, Book, ANSWER_BYTES};
use crate::stage::Case;
use crate::with::With;

/// Tasks that no queue takes.
pub(super) const NO_TASK: [u64; 14] = [1, 2, 3, 4, 5, 6, 8, 9, 0, 10, 256, 1 << 32 | 7, 1 << 63 | 7, u64::MAX];
/// Numbers of a question that is one block.
const DAMAGES: [u32; 10] = [13, 14, 15, 16, 18, 19, 20, 21, 22, 23];
/// `max_iterations` near what a flash needs.
pub(super) const TIGHT: [u64; 10] = [3, 6, 9, 12, 16, 20, 25, 30, 40, 60];

/// What is particular about a call.
#[derive(Debug, Clone, Copy, PartialEq, Eq)]
enum Part {
    Plain,
    /// Extreme data of a solvent that is absent from all questions, or from some.
    WildAbsent,
    WildBook,
    WildQuestions,
    /// Moles of feeds by mass that overflow, or nearly.
    Overflow,
    /// An alpha that is positive at some of the temperatures.
    Alpha,
    /// No question, more than 64, or one cut short.
    NoQuestions,
    /// Another task than the flash, in a block that passes 11 or, at times, doesn't.
    NoTask,
    /// Too few bytes for the answers.
    NoRoom,
    /// A version, a model or a molar mass that is none.
    NoBook,
    Edge,
    DamagedBook,
}

impl Part {
    fn draw(rng: &mut Rng) -> Self {
        match rng.below(100) {
            0..=52 => Part::Plain,
            53..=60 => Part::WildAbsent,
            61..=64 => Part::WildBook,
            65..=67 => Part::WildQuestions,
            68..=70 => Part::Overflow,
            71..=74 => Part::Alpha,
            75..=78 => Part::NoQuestions,
            79..=84 => Part::NoTask,
            85..=88 => Part::NoRoom,
            89..=90 => Part::NoBook,
            91..=95 => Part::Edge,
            _ => Part::DamagedBook,
        }
    }

    fn kind(self) -> Kind {
        match self {
            Part::Plain | Part::Alpha => Kind::Realistic,
            Part::WildAbsent => Kind::WildAbsent,
            Part::WildBook | Part::Overflow => Kind::WildBook,
            Part::WildQuestions => Kind::WildQuestion,
            Part::Edge => Kind::Edge,
            Part::NoBook | Part::DamagedBook => Kind::DamagedBook,
            Part::NoQuestions | Part::NoTask | Part::NoRoom => Kind::DamagedQuestion,
        }
    }
}

pub fn draw(rng: &mut Rng, n: usize) -> (Kind, Case) {
    let part = Part::draw(rng);
    (part.kind(), call(rng, n, part))
}

fn call(rng: &mut Rng, n: usize, part: Part) -> Case {
    let mut draft = pooled::realistic(rng, n);
    let victim = rng.below(n);
    match part {
        Part::WildAbsent => pooled::make_extreme(rng, &mut draft, victim),
        Part::WildBook => books::make_wild(rng, &mut draft, victim),
        Part::Overflow => mass::enter_overflow(rng, &mut draft),
        Part::Alpha => alpha_of_some(rng, &mut draft),
        Part::Edge if rng.one_in(3) => books::at_the_edge(rng, &mut draft),
        _ => {}
    }
    let right = draft.bytes();
    let Ok(opened) = open_book(&right) else {
        // A wild value that question 5, 8 or 9 refuses.
        return case(right.clone(), Ask::new(FLASH, &[1.0]).bytes_for(&right), rng.bits(), ANSWER_BYTES);
    };
    let mut queue = several(rng, &opened, part, victim);
    if part == Part::NoTask {
        let k = rng.below(queue.len());
        queue[k] = of_another_task(rng, &queue[k], opened.rule);
    }
    let allowance = allowance(rng, &right, &queue);
    let mut questions = queue.concat();
    let mut room = queue.len() * ANSWER_BYTES + rng.pick(&[0, 0, 0, 1, 700]);
    match part {
        Part::NoQuestions => {
            no_questions(rng, &mut questions);
            room = rng.pick(&[0, room, ANSWER_BYTES * questions.len().div_ceil(BLOCK).min(70)]);
        }
        Part::NoRoom => room = batches::no_room(rng, queue.len()),
        Part::NoTask if rng.one_in(4) => room = batches::no_room(rng, queue.len()),
        _ => {}
    }
    let book = match part {
        Part::NoBook => {
            pooled::no_book(rng, &mut draft);
            draft.bytes()
        }
        Part::DamagedBook => books::spoiled(rng, &draft),
        _ => right,
    };
    case(book, questions, allowance, room)
}

fn case(book: Vec<u8>, questions: Vec<u8>, allowance: u64, room: usize) -> Case {
    Case::With { with: With::Allowance, book, question: questions, lent: allowance.to_le_bytes().to_vec(), room }
}

/// Changes its sign between 300 and 420 K, for one pair of an NRTL book.
pub(super) fn alpha_of_some(rng: &mut Rng, draft: &mut Draft) {
    let nrtl = draft.blocks[0][MODEL] != WILSON;
    if let Some(at) = draft.any_pair(rng).filter(|_| nrtl) {
        let (a0, t) = (0.3 * rng.sign(), rng.range(300.0, 420.0));
        books::put_alphas(&mut draft.blocks[at], a0, -a0 / t);
    }
}

/// 1 to 64 questions, of which so many in a hundred are damaged; some stand twice.
fn several(rng: &mut Rng, book: &Book, part: Part, victim: usize) -> Vec<Vec<u8>> {
    let bad = rng.pick(&[0, 0, 0, 10, 30, 80]);
    let tight = rng.one_in(2);
    let mut all: Vec<Vec<u8>> = Vec::new();
    for _ in 0..how_many(rng) {
        let again = !all.is_empty() && rng.one_in(12);
        let question = if again { all[rng.below(all.len())].clone() } else { one(rng, book, part, victim, bad, tight) };
        all.push(question);
    }
    all
}

fn one(rng: &mut Rng, book: &Book, part: Part, victim: usize, bad: usize, tight: bool) -> Vec<u8> {
    let n = book.solvents.len();
    let w = match part {
        Part::WildAbsent if n > 1 && rng.percent(80) => mass::without(rng, n, victim),
        _ if rng.one_in(6) => feeds::feed_with(rng, n, Absent::AllButOne),
        _ => mass::masses(rng, n),
    };
    let by_mass = book.molar_masses.is_some() && (part == Part::Overflow || rng.one_in(3));
    let asked = if by_mass { mass::question } else { questions::with_feed };
    let mut question = asked(rng, book, FLASH, &w);
    if tight {
        question.words[MAX_ITERATIONS] = rng.pick(&TIGHT);
    }
    match part {
        Part::WildQuestions => questions::make_wild(rng, &mut question),
        Part::Edge => questions::at_the_edge(rng, &mut question),
        _ => {}
    }
    if !rng.percent(bad) {
        return question.question();
    }
    for _ in 0..rng.between(1, 2) {
        match rng.below(4) {
            0 => question.words[BASIS] = mass::neither(rng),
            1 => return wrong_block(rng, &question),
            _ => questions::damage(rng, &mut question, rng.clone().pick(&DAMAGES)),
        }
    }
    question.question()
}

/// For 11: a bit, the kind, or the check by the other rule.
fn wrong_block(rng: &mut Rng, question: &questions::Draft) -> Vec<u8> {
    let mut words = question.words;
    match rng.below(4) {
        0 => words[0] = rng.pick(&[0, 9, 1 << 32 | 8, u64::MAX]),
        1 => return sealed_by(if question.rule == Rule::Plain { Rule::Running } else { Rule::Plain }, words),
        _ => {
            let mut bytes = sealed_by(question.rule, words);
            let at = rng.below(BLOCK);
            bytes[at] ^= 1 << rng.below(8);
            return bytes;
        }
    }
    sealed_by(question.rule, words)
}

fn of_another_task(rng: &mut Rng, question: &[u8], rule: Rule) -> Vec<u8> {
    let mut words = words_of(question);
    words[0] = 8;
    words[TASK] = rng.pick(&NO_TASK);
    if rng.one_in(4) {
        // Then it isn't asked for its task.
        words[63] = rng.bits();
        return bytes_of(&words).to_vec();
    }
    sealed_by(rule, words)
}

/// What a question asks for, and what it takes where it is run.
struct Need {
    most: u64,
    begun: u64,
}

/// Nothing, all there is, what one question asks for behind what those before it take, and beside that; or any.
fn allowance(rng: &mut Rng, book: &[u8], queue: &[Vec<u8>]) -> u64 {
    let needs: Vec<Need> = queue.iter().filter_map(|question| need(book, question)).collect();
    let taken = |k: usize| needs[..k].iter().map(|need| need.begun).sum::<u64>();
    let Some(first) = needs.first() else {
        return rng.pick(&[0, 1, u64::MAX]);
    };
    let beside = rng.pick(&[0, 0, 1]);
    match rng.below(14) {
        0 => 0,
        1 => u64::MAX,
        2 => first.most - beside,
        3..=8 => {
            let k = rng.below(needs.len());
            taken(k) + needs[k].most - beside
        }
        9 => taken(needs.len()),
        10 => needs.iter().map(|need| need.most).sum::<u64>() - beside,
        11 => needs.iter().map(|need| need.most).min().expect("one is there") - beside,
        12 => rng.decade(0.0, 5.0) as u64,
        _ => rng.bits() >> rng.below(64),
    }
}

/// `None` of a question that is refused before any evaluation.
fn need(book: &[u8], question: &[u8]) -> Option<Need> {
    let (_, begun) = counted(|| sheet::answer(book, question, &mut [0; ANSWER_BYTES]));
    (begun > 0).then(|| Need { most: most_of(book, question), begun })
}

/// Another length than that of 1 to 64 questions.
fn no_questions(rng: &mut Rng, questions: &mut Vec<u8>) {
    let longer = |rng: &mut Rng, questions: &mut Vec<u8>, length: usize| {
        let own = questions.len();
        questions.resize_with(length, || rng.bits() as u8);
        // More of the same, so that only their number is wrong.
        (own..length).for_each(|at| questions[at] = questions[at - own]);
    };
    match rng.below(6) {
        0 => questions.clear(),
        1 => longer(rng, questions, BLOCK * (MOST_QUESTIONS + 1)),
        2 => longer(rng, questions, BLOCK * rng.clone().between(MOST_QUESTIONS + 1, 100)),
        3 => questions.truncate(questions.len() - rng.between(1, BLOCK - 1)),
        4 => longer(rng, questions, questions.len() + rng.clone().between(1, BLOCK - 1)),
        _ => questions.truncate(rng.below(BLOCK)),
    }
}

type Dues = Result<Vec<Due>, u32>;

/// Blocks of a book, questions, allowance; what becomes of each question. The room is what is needed.
type Asked = (Vec<Words>, Vec<Ask>, u64, Dues);

/// Calls at the borders, with what becomes of each question; compared before any others.
pub fn borders() -> Vec<(Case, Dues)> {
    let asked = |(book, queue, allowance, dues): Asked| {
        let book = bytes(&book);
        let questions: Vec<u8> = queue.iter().flat_map(|ask| ask.bytes_for(&book)).collect();
        let room = queue.len() * ANSWER_BYTES;
        (case(book, questions, allowance, room), dues)
    };
    let all = [answers(), allowances(), at_the_bound(), counts(), before_any(), inside(), positive(), tasks()];
    let all = all.into_iter().flatten().map(asked);
    all.chain(places()).chain(lengths()).chain(rooms()).chain(as_sent()).collect()
}

/// Begins as many evaluations as a flash with m positive fractions and this limit can: the dew point, the split and each trial end in
/// their last turn.
pub struct Full {
    pub book: Vec<Words>,
    pub ask: Ask,
    pub m: usize,
    pub limit: u64,
}

impl Full {
    pub fn most(&self) -> u64 {
        crate::evaluations::most(self.m, self.limit)
    }

    pub fn case(&self) -> Case {
        let book = bytes(&self.book);
        let question = self.ask.bytes_for(&book);
        Case::Sheet { book, question, room: ANSWER_BYTES }
    }
}

pub fn full() -> Vec<Full> {
    let of = |m, tau, feed: &[f64], p, tolerance, limit| Full {
        book: blocks(&[4e6, 1e6, 2e6, 3e6][..m], tau),
        ask: Ask::new(FLASH, feed).under(p).float(13, tolerance).limits(limit),
        m,
        limit,
    };
    vec![
        of(2, [-0.076, 0.077], &[0.63, 0.37], 14_480.0, 1e-11, 4),
        of(3, [0.328, -0.502], &[0.28, 0.66, 0.06], 10_280.0, 1e-12, 10),
    ]
}

/// Of two solvents between dew and bubble point: M 200, so that it asks for 804.
pub fn ask() -> Ask {
    Ask::new(FLASH, &[0.3, 0.7]).under(1.2e4)
}

/// One solvent, the other absent: no dew point and no split are looked for. With this M it asks for 7 and takes 2 as a liquid.
fn pure() -> Ask {
    Ask::new(FLASH, &[1.0, -0.0]).word(MAX_ITERATIONS, 1).under(3e5)
}

fn asked(queue: &[Ask], allowance: u64, dues: &[Due]) -> Asked {
    (two(), queue.to_vec(), allowance, Ok(dues.to_vec()))
}

/// On each kind of book, with all of an allowance that never ends; by mass where there are molar masses.
fn answers() -> Vec<Asked> {
    let mut all = Vec::new();
    for book in books_of_two() {
        for q in [1, 2, 64] {
            all.push((book.clone(), vec![ask(); q], u64::MAX, Ok(vec![Answered; q])));
            all.push((book.clone(), vec![ask(); q], 0, Ok(vec![PutOff; q])));
        }
        if book[0][1] > 1 {
            let by_mass = ask().word(BASIS, BY_MASS);
            all.push((book.clone(), vec![ask(), by_mass], u64::MAX, Ok(vec![Answered; 2])));
        }
        // A refusal block and one put off, by the book's rule.
        let three = vec![ask().at(0.0), ask(), ask().word(MAX_ITERATIONS, 1_000_000)];
        all.push((book.clone(), three, 804, Ok(vec![Refused(13), Answered, PutOff])));
    }
    all
}

/// (m + 2) M + 4 fits, or is one more than there is.
fn allowances() -> Vec<Asked> {
    let mut all = Vec::new();
    for (limit, most) in [(200, 804), (201, 808), (1_000_000, 4_000_004)] {
        let one = ask().word(MAX_ITERATIONS, limit);
        for allowance in [0, 1, most - 1, most, most + 1, 1 << 32, 1 << 63, u64::MAX] {
            let due = if allowance < most { PutOff } else { Answered };
            all.push(asked(&[one], allowance, &[due]));
        }
    }
    // The next is tried.
    let large = ask().word(MAX_ITERATIONS, 1_000_000);
    all.push(asked(&[large, ask(), large, pure()], 1000, &[PutOff, Answered, PutOff, Answered]));
    for allowance in [6, 7, 8] {
        let due = if allowance < 7 { PutOff } else { Answered };
        all.push(asked(&[pure()], allowance, &[due]));
    }
    all
}

/// Flashes that take all that they ask for: what is left behind them is what was given more.
fn at_the_bound() -> Vec<Asked> {
    let mut all = Vec::new();
    for found in full() {
        let (book, most) = (found.book.clone(), found.most());
        let mut of = |queue: &[Ask], allowance, dues: &[Due]| {
            all.push((book.clone(), queue.to_vec(), allowance, Ok(dues.to_vec())));
        };
        let mut alone = [0.0; 8];
        alone[0] = 1.0;
        let last = Ask::new(FLASH, &alone[..found.m]).word(MAX_ITERATIONS, 1).under(3e5);
        of(&[found.ask], most, &[Answered]);
        of(&[found.ask], most - 1, &[PutOff]);
        of(&[found.ask; 2], 2 * most, &[Answered; 2]);
        of(&[found.ask; 2], 2 * most - 1, &[Answered, PutOff]);
        of(&[found.ask, last], most + 7, &[Answered; 2]);
        of(&[found.ask, last], most + 6, &[Answered, PutOff]);
        // One turn less is not enough.
        let short = found.ask.word(MAX_ITERATIONS, found.limit - 1);
        of(&[short], most, &[Refused(27)]);
    }
    all
}

/// The real count is taken off, answered or refused later: of one solvent as a liquid 2, as a vapor 1; of 24 and of 25 in the first
/// evaluation 1, and of 34 behind it, since that stands before the next; of 27 after the dew point's only turn 2.
fn counts() -> Vec<Asked> {
    let vapor = pure().under(150.0);
    let unconverged = ask().word(MAX_ITERATIONS, 1);
    let mut flat = two();
    books::put_alphas(&mut flat[3], -1.0, 0.0);
    let mut all = Vec::new();
    // 7 have to be left for the last.
    for (first, asks, takes, due) in
        [(pure(), 7, 2, Answered), (vapor, 7, 1, Answered), (unconverged, 8, 2, Refused(27))]
    {
        let least = asks.max(takes + 7);
        all.push(asked(&[first, pure()], least, &[due, Answered]));
        all.push(asked(&[first, pure()], least - 1, &[due, PutOff]));
    }
    for (book, number) in [(flat, 24), (overflowing(), 25), (vanishing(), 34)] {
        let mut of = |queue: &[Ask], allowance, dues: &[Due]| {
            all.push((book.clone(), queue.to_vec(), allowance, Ok(dues.to_vec())));
        };
        let refused = Refused(number);
        of(&[unconverged], 7, &[PutOff]);
        of(&[unconverged], 8, &[refused]);
        of(&[unconverged; 2], 8, &[refused, PutOff]);
        of(&[unconverged; 2], 9, &[refused; 2]);
        of(&[unconverged; 3], 9, &[refused, refused, PutOff]);
        // One solvent has no dew point that could be refused.
        let last = if number == 34 { Answered } else { refused };
        of(&[unconverged, pure()], 8, &[refused, last]);
    }
    all
}

/// A question that the book `two` refuses with the number before any evaluation.
pub(super) fn refused_first() -> Vec<(Ask, u64)> {
    vec![
        (ask().word(0, 7), 11),
        (ask().word(BASIS, 2), 36),
        (ask().at(f64::NAN), 13),
        (ask().under(-0.0), 14),
        (ask().float(FRACTIONS, f64::NAN), 15),
        (ask().float(FRACTIONS, -0.3), 16),
        (ask().float(FRACTIONS, 0.3000000002), 18),
        (ask().float(13, 1.0), 19),
        (ask().word(MAX_ITERATIONS, 0), 20),
        (ask().word(14, 0), 20),
        (ask().word(MAX_ITERATIONS, 1_000_001), 21),
        (ask().word(MAX_ITERATIONS, u64::MAX), 21),
        (ask().word(14, 1_000_001), 21),
        (ask().at(273.15), 22),
        (ask().under(99.0), 23),
    ]
}

/// Refused with nothing left as with all there is, and nothing is taken.
fn before_any() -> Vec<Asked> {
    let mut all = Vec::new();
    for (wrong, number) in refused_first() {
        all.push(asked(&[wrong], 0, &[Refused(number)]));
        all.push(asked(&[wrong], u64::MAX, &[Refused(number)]));
        all.push(asked(&[wrong, ask(), wrong], 804, &[Refused(number), Answered, Refused(number)]));
        all.push(asked(&[wrong, ask(), wrong], 803, &[Refused(number), PutOff, Refused(number)]));
    }
    // A feed by mass whose moles overflow; the other solvent alone is answered.
    let mut light = two();
    put(&mut light[1], MOLAR_MASS, f64::from_bits(1));
    let overflows = ask().word(BASIS, BY_MASS);
    let other = Ask::new(FLASH, &[0.0, 1.0]).word(BASIS, BY_MASS).under(3e5);
    all.push((light, vec![overflows, other], 604, Ok(vec![Refused(34), Answered])));
    // A vapor pressure that is not finite, of an absent solvent too.
    let mut heavy = two();
    put(&mut heavy[1], 8, -1e4);
    all.push((heavy.clone(), vec![ask()], 0, Ok(vec![Refused(25)])));
    heavy[1][8] = two()[1][8];
    put(&mut heavy[2], 8, -1e4);
    all.push((heavy, vec![pure(), pure()], 0, Ok(vec![Refused(25); 2])));
    // Every number of them, and what is answered between them.
    let wrong = refused_first();
    let mut queue: Vec<Ask> = wrong.iter().map(|(ask, _)| *ask).collect();
    queue.insert(8, ask());
    let mut dues: Vec<Due> = wrong.iter().map(|(_, number)| Refused(*number)).collect();
    dues.insert(8, Answered);
    all.push(asked(&queue, 804, &dues));
    all
}

/// Vapor pressures of 1e-315 Pa: the terms of the dew point's liquid overflow (34), ahead of its first evaluation.
fn vanishing() -> Vec<Words> {
    small::constant(&[1e-315, 1e-315], [0.0, 0.0])
}

/// G of exp(900): ln γ is not finite (25).
fn overflowing() -> Vec<Words> {
    blocks(&[4e6, 1e6], [0.0, -3000.0])
}

/// Refusals that come inside a calculation are put off where there is too little.
fn inside() -> Vec<Asked> {
    let mut all = Vec::new();
    let splits = blocks(&[4e6, 1e6], [3.0, 3.0]);
    let unstable = Ask::new(FLASH, &[0.5, 0.5]).under(4e5);
    let mut of = |book: &[Words], ask: Ask, most: u64, number| {
        all.push((book.to_vec(), vec![ask], most - 1, Ok(vec![PutOff])));
        all.push((book.to_vec(), vec![ask], most, Ok(vec![Refused(number)])));
    };
    of(&splits, unstable, 804, 29);
    of(&two(), ask().word(MAX_ITERATIONS, 2), 12, 27);
    of(&vanishing(), ask(), 804, 34);
    of(&overflowing(), ask(), 804, 25);
    all
}

/// m is the number of positive mole fractions: neither zeros nor what is none once a feed by mass is converted.
fn positive() -> Vec<Asked> {
    let mut all = Vec::new();
    let one = |feed: &[f64]| Ask::new(FLASH, feed).word(MAX_ITERATIONS, 1);
    let book = || mass::entered(&[0.018, 2.0, 0.046]);
    let trace = f64::from_bits(1);
    let mut of = |ask: Ask, most: u64| {
        all.push((book(), vec![ask], most - 1, Ok(vec![PutOff])));
        // Refused or not, it is run.
        all.push((book(), vec![ask, ask.at(0.0)], most, Ok(vec![Refused(27), Refused(13)])));
    };
    of(one(&[0.3, 0.0, 0.7]), 8);
    of(one(&[0.3, -0.0, 0.7]), 8);
    of(one(&[0.3, trace, 0.7]), 9);
    of(one(&[0.3, 0.2, 0.5]), 9);
    // Its moles vanish.
    of(one(&[0.3, trace, 0.7]).word(BASIS, BY_MASS), 8);
    of(one(&[0.3, 0.2, 0.5]).word(BASIS, BY_MASS), 9);
    // Behind n.
    of(one(&[0.3, 0.0, 0.7, 0.1, 0.2, f64::NAN]), 8);
    all
}

/// 39 of every task but the flash, where 11 passes.
fn tasks() -> Vec<Asked> {
    let mut all = Vec::new();
    for task in NO_TASK {
        let other = ask().word(TASK, task);
        all.push((two(), vec![other], u64::MAX, Err(39)));
        all.push((two(), vec![ask(), other, ask()], 0, Err(39)));
        all.push((two(), vec![ask(), ask(), other], u64::MAX, Err(39)));
        // Not a question: not asked for its task.
        let none = other.word(0, 9);
        all.push((two(), vec![ask(), none], 804, Ok(vec![Answered, Refused(11)])));
        all.push((two(), vec![none, other], 804, Err(39)));
    }
    let mut many = vec![ask(); 64];
    many[63] = ask().word(TASK, 6);
    all.push((two(), many, u64::MAX, Err(39)));
    all
}

/// The book's numbers, 39 and 10, in order; each ends the call.
fn places() -> Vec<(Case, Dues)> {
    let mut no_version = two();
    no_version[0][1] = 4;
    let mut no_mass = two();
    put(&mut no_mass[2], MOLAR_MASS, 0.0);
    let mut no_model = two();
    no_model[0][MODEL] = 2;
    let mut no_alpha = two();
    no_alpha[3][11] ^= 1;
    let of = |book: &[Words], queue: &[Ask], room: usize, number| {
        let book = bytes(book);
        let questions: Vec<u8> = queue.iter().flat_map(|ask| ask.bytes_for(&book)).collect();
        (case(book, questions, u64::MAX, room), Err(number))
    };
    let other = ask().word(TASK, 6);
    vec![
        of(&no_version, &[], 0, 38),
        of(&no_mass, &[], 0, 35),
        of(&no_model, &[other], 0, 37),
        of(&no_alpha, &[other; 65], 0, 9),
        of(&two(), &[], 0, 39),
        of(&two(), &[other], 0, 39),
        of(&two(), &[ask(); 65], 0, 39),
        of(&two(), &[ask(); 65], 65 * ANSWER_BYTES, 39),
        of(&two(), &[ask(), other], ANSWER_BYTES, 39),
        of(&two(), &[ask(), other], 2 * ANSWER_BYTES, 39),
        of(&two(), &[ask(), ask().word(0, 7)], 2 * ANSWER_BYTES - 1, 10),
        of(&two(), &[ask().at(0.0)], 0, 10),
    ]
}

/// 39, whatever room there is.
fn lengths() -> Vec<(Case, Dues)> {
    let book = bytes(&two());
    let full: Vec<u8> = (0..80).flat_map(|_| pure().bytes_for(&book)).collect();
    let mut all = Vec::new();
    for length in [0, 1, 64, 511, 512, 513, 1023, 1024, 1025, 32_255, 32_256, 32_767, 32_768, 32_769, 33_280, 40_960] {
        let q = length / BLOCK;
        let right = length % BLOCK == 0 && (1..=MOST_QUESTIONS).contains(&q);
        let dues = if right { Ok(vec![Answered; q]) } else { Err(39) };
        let room = q.clamp(1, 66) * ANSWER_BYTES;
        all.push((case(book.clone(), full[..length].to_vec(), u64::MAX, room), dues));
    }
    all
}

/// 4,608 bytes for each question, and one less.
fn rooms() -> Vec<(Case, Dues)> {
    let book = bytes(&two());
    let mut all = Vec::new();
    for q in [1, 2, 63, 64] {
        let least = q * ANSWER_BYTES;
        let questions: Vec<u8> = (0..q).flat_map(|_| pure().bytes_for(&book)).collect();
        for room in [0, 1, ANSWER_BYTES - 1, least - ANSWER_BYTES, least - BLOCK, least - 1, least, least + 1] {
            let dues = if room < least { Err(10) } else { Ok(vec![Answered; q]) };
            all.push((case(book.clone(), questions.clone(), u64::MAX, room), dues));
        }
    }
    all
}

/// 11 of each question as it was sent, by the book's rule; it takes nothing, and the next is asked.
fn as_sent() -> Vec<(Case, Dues)> {
    let mut all = Vec::new();
    for book in books_of_two() {
        let book = bytes(&book);
        let right = ask().bytes_for(&book);
        let other = if rule_of(&book) == Rule::Plain { Rule::Running } else { Rule::Plain };
        let mut flipped = right.clone();
        flipped[8 * FRACTIONS] ^= 1;
        let zeros = vec![0; BLOCK];
        // Another task, which isn't asked for.
        let unasked = sealed_by(other, ask().word(TASK, 2).0);
        for wrong in [flipped, sealed_by(other, ask().0), zeros, unasked] {
            let questions = [&wrong[..], &right, &wrong].concat();
            let dues = Ok(vec![Refused(11), Answered, Refused(11)]);
            all.push((case(book.clone(), questions, 804, 3 * ANSWER_BYTES), dues));
        }
    }
    all
}
