//! Flashes from which the next phase change is looked for: near it, far from it and without one, near both ends of the pressures, at
//! azeotropes, with steps that are refused; on books of both models and all versions. And those at the borders of the steps.

use super::books::{self, put, Draft};
use super::cases::Kind;
use super::feeds::{self, Absent};
use super::pooled::{self, books_of_two, two};
use super::queues::{alpha_of_some, ask, refused_first, NO_TASK, TIGHT};
use super::small::{bytes, constant, Ask};
use super::{beside, mass, questions, Rng};
use crate::helpers;
use crate::named::model::{ActivityModel, ACTIVITY_PRESSURE_RANGE_PA};
use crate::named::solvers::activity_bubble_pressure;
use crate::sheet::anew::word;
use crate::sheet::blocks::Words;
use crate::sheet::book::{MODEL, WILSON};
use crate::sheet::distance::Distance::{self, Step};
use crate::sheet::distance::{flashed, Way, FARTHEST, RESULT_WORDS};
use crate::sheet::question::{BASIS, BY_MASS, FRACTIONS, MAX_ITERATIONS, PRESSURE, TASK, TEMPERATURE};
use crate::sheet::queue::FLASH;
use crate::sheet::reply::{BUBBLE, DEW};
use crate::sheet::{open_book, Book};
use crate::stage::Case;
use crate::types::Temperature;

/// Numbers of a question that is one block.
const DAMAGES: [u32; 11] = [11, 13, 14, 15, 16, 18, 19, 20, 21, 22, 23];
/// Every how many distances have all their steps asked of the reference by plain calls.
const PLAIN_IN: usize = 8;

/// What is particular about a call.
#[derive(Debug, Clone, Copy, PartialEq, Eq)]
enum Part {
    Plain,
    /// Two solvents whose bubble and dew pressure meet, or nearly.
    Azeotrope,
    /// One solvent.
    Alone,
    /// `max_iterations` near what a flash needs.
    Tight,
    /// A pair whose liquid mostly splits.
    Splits,
    /// Extreme data of a solvent that is absent.
    WildAbsent,
    WildBook,
    WildQuestion,
    /// Moles of a feed by mass that overflow, or nearly.
    Overflow,
    /// An alpha that is positive at some temperatures.
    Alpha,
    NoTask,
    /// A word 27 that is none, at times beside another no.
    NoBasis,
    /// A version, a model or a molar mass that is none.
    NoBook,
    Edge,
    DamagedQuestion,
    DamagedBook,
}

impl Part {
    fn draw(rng: &mut Rng) -> Self {
        match rng.below(100) {
            0..=45 => Part::Plain,
            46..=55 => Part::Azeotrope,
            56..=60 => Part::Alone,
            61..=66 => Part::Tight,
            67..=70 => Part::Splits,
            71..=76 => Part::WildAbsent,
            77 => Part::WildBook,
            78..=79 => Part::WildQuestion,
            80 => Part::Overflow,
            81..=82 => Part::Alpha,
            83..=84 => Part::NoTask,
            85..=86 => Part::NoBasis,
            87..=88 => Part::NoBook,
            89..=90 => Part::Edge,
            91..=95 => Part::DamagedQuestion,
            _ => Part::DamagedBook,
        }
    }

    fn kind(self) -> Kind {
        match self {
            Part::Plain | Part::Azeotrope | Part::Alone | Part::Tight | Part::Splits | Part::Alpha => Kind::Realistic,
            Part::WildAbsent => Kind::WildAbsent,
            Part::WildBook | Part::Overflow => Kind::WildBook,
            Part::WildQuestion => Kind::WildQuestion,
            Part::Edge => Kind::Edge,
            Part::NoTask | Part::NoBasis | Part::DamagedQuestion => Kind::DamagedQuestion,
            Part::NoBook | Part::DamagedBook => Kind::DamagedBook,
        }
    }
}

pub fn draw(rng: &mut Rng, n: usize) -> (Kind, Case) {
    let part = Part::draw(rng);
    (part.kind(), call(rng, n, part))
}

fn call(rng: &mut Rng, n: usize, part: Part) -> Case {
    let mut draft = pooled::realistic(rng, n);
    let victim = rng.below(n);
    match part {
        Part::Splits => split(rng, &mut draft),
        Part::WildAbsent => pooled::make_extreme(rng, &mut draft, victim),
        Part::WildBook => books::make_wild(rng, &mut draft, victim),
        Part::Overflow => mass::enter_overflow(rng, &mut draft),
        Part::Alpha => alpha_of_some(rng, &mut draft),
        Part::Edge if rng.one_in(3) => books::at_the_edge(rng, &mut draft),
        _ => {}
    }
    let right = draft.bytes();
    let Ok(opened) = open_book(&right) else {
        // A wild value that question 5, 8 or 9 refuses.
        let question = Ask::new(FLASH, &[1.0]).bytes_for(&right);
        return case(rng, right, question);
    };
    let mut question = flash(rng, &opened, part, victim);
    place(rng, &right, &mut question);
    spoil(rng, part, &mut question);
    let book = match part {
        Part::NoBook => {
            pooled::no_book(rng, &mut draft);
            draft.bytes()
        }
        Part::DamagedBook => books::spoiled(rng, &draft),
        _ => right,
    };
    case(rng, book, question.question())
}

fn case(rng: &mut Rng, book: Vec<u8>, question: Vec<u8>) -> Case {
    let room = if rng.one_in(2) { RESULT_WORDS } else { rng.below(7) };
    let way = if rng.one_in(PLAIN_IN) { Way::Plain } else { Way::Sides };
    Case::Distance { book, question, room, way }
}

/// Strong terms both ways, for one pair of an NRTL book.
fn split(rng: &mut Rng, draft: &mut Draft) {
    let nrtl = draft.blocks[0][MODEL] != WILSON;
    if let Some(at) = draft.any_pair(rng).filter(|_| nrtl) {
        for from in [3, 7] {
            draft.blocks[at][from..from + 4].fill(0);
            put(&mut draft.blocks[at], from, rng.range(1.5, 4.0));
        }
        books::put_alphas(&mut draft.blocks[at], 0.3, 0.0);
    }
}

fn flash(rng: &mut Rng, book: &Book, part: Part, victim: usize) -> questions::Draft {
    let n = book.solvents.len();
    let feed = match part {
        Part::WildAbsent if n > 1 => mass::without(rng, n, victim),
        Part::Alone => feeds::feed_with(rng, n, Absent::AllButOne),
        Part::Azeotrope | Part::Splits => feeds::feed_with(rng, n, Absent::None),
        _ => mass::masses(rng, n),
    };
    let by_mass = book.molar_masses.is_some() && (part == Part::Overflow || rng.one_in(3));
    let asked = if by_mass { mass::question } else { questions::with_feed };
    let mut question = asked(rng, book, FLASH, &feed);
    match part {
        Part::Azeotrope if n > 1 => {
            let t = question.get(TEMPERATURE);
            if let Some(x) = azeotrope(rng, &book.model(), t) {
                let masses = book.molar_masses.as_ref().filter(|_| by_mass);
                let of = |i: usize| masses.map_or(x[i], |masses| x[i] * masses[i]);
                question.put_all(FRACTIONS, &helpers::shares((0..n).map(of).collect()));
            }
        }
        Part::Tight => question.words[MAX_ITERATIONS] = rng.pick(&TIGHT),
        _ => {}
    }
    question
}

/// Of two of the solvents, the others absent: where vapor and liquid are alike at the bubble point, or a little beside.
fn azeotrope(rng: &mut Rng, model: &ActivityModel, t: f64) -> Option<Vec<f64>> {
    let n = model.liquids().len();
    let i = rng.below(n);
    let j = (i + rng.between(1, n - 1)) % n;
    let feed = |x: f64| {
        let mut feed = vec![0.0; n];
        (feed[i], feed[j]) = (x, 1.0 - x);
        feed
    };
    let t = Temperature::new(t).ok()?;
    let richer = |x: f64| -> Option<bool> {
        let model = model.with_fractions(&feed(x)).ok()?;
        Some(activity_bubble_pressure(&model, t).ok()?.vapor[i] > x)
    };
    let (mut low, mut high) = (1e-3, 1.0 - 1e-3);
    let below = richer(low)?;
    if richer(high)? == below {
        return None;
    }
    for _ in 0..50 {
        let middle = (low + high) / 2.0;
        if richer(middle)? == below {
            low = middle;
        } else {
            high = middle;
        }
    }
    let aside = if rng.one_in(2) { 0.0 } else { rng.sign() * rng.decade(-9.0, -2.0) };
    Some(feed((low + aside).clamp(0.0, 1.0)))
}

/// Another pressure than the drawn one, from where dew and bubble pressure are.
fn place(rng: &mut Rng, book: &[u8], question: &mut questions::Draft) {
    let [low, high] = ACTIVITY_PRESSURE_RANGE_PA;
    let Some([bubble, dew]) = saturation(book, question, low) else { return };
    let (near, step) = (rng.pick(&[bubble, dew]), 100.0 * rng.sign());
    let away = |steps: f64| near + step * steps;
    let p = match rng.below(16) {
        0..=3 => away(rng.decade(-5.0, 1.3)),
        4 => away(rng.between(1, 20) as f64),
        5 => {
            let steps = rng.between(1, 1001);
            beside(rng, away(steps as f64))
        }
        6 => away(rng.between(995, 1001) as f64),
        7 => away(rng.range(900.0, 1010.0)),
        8 | 9 => away(rng.range(20.0, 900.0)),
        10 | 11 => low + rng.decade(-2.0, 5.1),
        12 => high - rng.decade(-2.0, 5.1),
        13 => rng.range(low, high),
        14 => rng.range(dew, bubble),
        _ => return,
    };
    question.put(PRESSURE, p.clamp(low, high));
}

/// Bubble and dew pressure, from the question as drawn or, where that is refused, as a vapor.
fn saturation(book: &[u8], question: &questions::Draft, low: f64) -> Option<[f64; 2]> {
    let mut thin = question.clone();
    thin.put(PRESSURE, low);
    let first = [question, &thin].iter().find_map(|asked| flashed(book, &asked.question()).ok())?;
    Some([BUBBLE, DEW].map(|at| f64::from_bits(word(&first, at))))
}

fn spoil(rng: &mut Rng, part: Part, question: &mut questions::Draft) {
    match part {
        Part::WildQuestion => questions::make_wild(rng, question),
        Part::Edge => questions::at_the_edge(rng, question),
        Part::NoTask => question.words[TASK] = rng.pick(&NO_TASK),
        Part::NoBasis => question.words[BASIS] = mass::neither(rng),
        _ => {}
    }
    let more = match part {
        Part::DamagedQuestion => rng.between(1, 2),
        Part::NoTask | Part::NoBasis => usize::from(rng.one_in(4)),
        _ => 0,
    };
    for _ in 0..more {
        let number = rng.pick(&DAMAGES);
        questions::damage(rng, question, number);
    }
}

/// What is found and how many steps were refused before, or the number.
pub type Due = Result<(Distance, usize), u32>;

/// Blocks of a book, a question, and what comes of it.
type Asked = (Vec<Words>, Ask, Due);

/// Calls at the borders, compared before any others; each with all steps by plain calls.
pub fn borders() -> Vec<(Case, Due)> {
    let case = |room: usize| {
        move |(book, ask, due): Asked| {
            let book = bytes(&book);
            let question = ask.bytes_for(&book);
            (Case::Distance { book, question, room, way: Way::Plain }, due)
        }
    };
    let all = [exact(), rounded(), ends(), across(), inside(), models(), refused(), places()].into_iter().flatten();
    let rooms = (0..=6).flat_map(|room| three().into_iter().map(case(room)));
    all.map(case(RESULT_WORDS)).chain(rooms).collect()
}

/// To a liquid.
fn up(s: i64) -> Distance {
    Step { s, outcome: 1 }
}

/// To a vapor.
fn down(s: i64) -> Distance {
    Step { s: -s, outcome: 2 }
}

/// To both.
fn both(s: i64) -> Distance {
    Step { s, outcome: 3 }
}

/// One solvent whose bubble and dew pressure is near this, Pa: a liquid there and above.
fn alone(boils: f64, p: f64, due: Due) -> Asked {
    (constant(&[boils], [0.0, 0.0]), Ask::new(FLASH, &[1.0]).under(p), due)
}

/// That pressure to the last bit.
fn boundary(boils: f64) -> f64 {
    let (book, ask, _) = alone(boils, ACTIVITY_PRESSURE_RANGE_PA[0], Err(0));
    let book = bytes(&book);
    let vapor = flashed(&book, &ask.bytes_for(&book)).expect("a vapor");
    f64::from_bits(word(&vapor, BUBBLE))
}

/// Steps that end at the boundary, before it and behind it; the first and the last, and one too far.
fn exact() -> Vec<Asked> {
    // Every sum from 100 kPa below to 200 kPa above is exact.
    const BOILS: f64 = 280_000.0;
    let at = boundary(BOILS);
    let due =
        |steps: i64, found: fn(i64) -> Distance| Ok((if steps > FARTHEST { Distance::None } else { found(steps) }, 0));
    let mut all = vec![alone(BOILS, at, due(1, down)), alone(BOILS, before(at), due(1, up))];
    for k in [1, 2, 3, 10, 499, 998, 999, FARTHEST, FARTHEST + 1] {
        let away = 100.0 * k as f64;
        for (p, due) in [
            (at - away, due(k, up)),
            (before(at - away), due(k + 1, up)),
            (at - away + 50.0, due(k, up)),
            (at + away, due(k + 1, down)),
            (before(at + away), due(k, down)),
            (at + away + 50.0, due(k + 1, down)),
        ] {
            all.push(alone(BOILS, p, due));
        }
    }
    all
}

/// The float before a positive one.
fn before(v: f64) -> f64 {
    f64::from_bits(v.to_bits() - 1)
}

/// One addition, rounded once: floats are twice as far apart at the last step's sum as at P, and a tie goes to the boundary, whose last
/// bit is 0.
fn rounded() -> Vec<Asked> {
    let even = |boils: &f64| boundary(*boils).to_bits().is_multiple_of(2);
    let boils = (210_000..).map(f64::from).find(even).expect("every second one is");
    let p = boundary(boils) - 100.0 * FARTHEST as f64;
    vec![
        alone(boils, p, Ok((up(FARTHEST), 0))),
        alone(boils, before(p), Ok((up(FARTHEST), 0))),
        alone(boils, before(before(p)), Ok((Distance::None, 0))),
    ]
}

/// Steps that leave 100 to 500,000 Pa are counted: 14 at 0 Pa and below, 23 elsewhere.
fn ends() -> Vec<Asked> {
    let none = |refused| Ok((Distance::None, refused));
    vec![
        alone(10_050.0, 100.0, Ok((up(100), 99))),
        alone(10_050.0, 175.0, Ok((up(99), 98))),
        alone(10_050.0, 200.0, Ok((up(99), 97))),
        alone(450_050.0, 500_000.0, Ok((down(500), 500))),
        alone(450_050.0, 499_900.0, Ok((down(499), 498))),
        alone(300_000.0, 100.0, none(1000)),
        alone(100_000.0, 500_000.0, none(1000)),
        alone(300_000.0, 100_100.0, none(0)),
        alone(300_000.0, before(100_100.0), none(1)),
        alone(300_000.0, 100_099.0, none(1)),
        alone(200_000.0, 400_000.0, none(0)),
        alone(200_000.0, f64::from_bits(400_000f64.to_bits() + 1), none(1)),
        alone(200_000.0, 400_001.0, none(1)),
        // The last step finds it, behind all that were refused.
        alone(100_050.0, 100.0, Ok((up(FARTHEST), 999))),
        alone(400_050.0, 500_000.0, Ok((down(FARTHEST), 1000))),
    ]
}

/// Two solvents, dew at 99,990 Pa and bubble at 100,000 Pa: steps over both boundaries, and both ways at once, where up comes first.
fn across() -> Vec<Asked> {
    let halves = |pressures: [f64; 2], p: f64, due: Due| {
        (constant(&pressures, [0.0, 0.0]), Ask::new(FLASH, &[0.5, 0.5]).under(p), due)
    };
    let close = |p: f64, due: Due| halves([101_000.0, 99_000.0], p, due);
    vec![
        close(99_995.0, Ok((up(1), 0))),
        close(99_950.0, Ok((up(1), 0))),
        close(100_040.0, Ok((down(1), 0))),
        close(99_895.0, Ok((both(1), 0))),
        close(100_095.0, Ok((both(-1), 0))),
        close(99_795.0, Ok((both(2), 0))),
        close(99_850.0, Ok((up(2), 0))),
        close(100_140.0, Ok((down(2), 0))),
        // Up is refused.
        halves([500_500.0, 499_500.0], 499_999.75, Ok((down(1), 1))),
        // Down is refused: to 99.95 Pa.
        halves([200.2, 199.8], 199.95, Ok((up(1), 0))),
        halves([200.2, 199.8], 199.9, Ok((up(1), 0))),
    ]
}

/// Steps refused inside a calculation: a liquid that splits (29), K values on one side of 1 (28) beside it; a limit that is spent (27).
fn inside() -> Vec<Asked> {
    let halves = Ask::new(FLASH, &[0.5, 0.5]);
    let splits = |pressures: [f64; 2], p: f64, due: Due| (constant(&pressures, [3.0, 3.0]), halves.under(p), due);
    let apart = |p: f64, due: Due| splits([40_000.0, 10_000.0], p, due);
    let alike = |p: f64, due: Due| splits([20_000.0, 20_000.0], p, due);
    let tight = |p: f64, limit: u64, due: Due| {
        (constant(&[40_000.0, 10_000.0], [0.9, 0.4]), halves.under(p).word(MAX_ITERATIONS, limit), due)
    };
    vec![
        apart(100.0, Ok((both(238), 276))),
        apart(8_000.0, Ok((both(159), 118))),
        apart(16_000.0, Ok((both(79), 39))),
        apart(20_000.0, Err(28)),
        apart(30_000.0, Ok((down(101), 41))),
        apart(40_000.0, Ok((down(201), 151))),
        apart(50_000.0, Err(29)),
        // Nothing but this liquid above.
        alike(100.0, Ok((Distance::None, 1525))),
        alike(40_000.0, Ok((Distance::None, 1525))),
        tight(20_000.0, 17, Err(27)),
        tight(20_000.0, 18, Ok((down(17), 13))),
        tight(20_000.0, 19, Ok((down(17), 3))),
        tight(20_000.0, 20, Ok((down(17), 0))),
        tight(25_000.0, 24, Ok((down(67), 65))),
    ]
}

/// On each kind of book, by moles and by mass.
fn models() -> Vec<Asked> {
    let mut all = Vec::new();
    for book in books_of_two() {
        let wilson = book[0][MODEL] == WILSON;
        let (by_moles, by_mass) = if wilson { (down(25), down(45)) } else { (down(28), up(10)) };
        all.push((book.clone(), ask(), Ok((by_moles, 0))));
        let due = if book[0][1] > 1 { Ok((by_mass, 0)) } else { Err(36) };
        all.push((book, ask().word(BASIS, BY_MASS), due));
    }
    all
}

/// The number of the flash at P, and 12 of every other task.
fn refused() -> Vec<Asked> {
    let of_flash = refused_first().into_iter().map(|(ask, number)| (two(), ask, Err(number as u32)));
    let of_tasks = NO_TASK.into_iter().map(|task| (two(), ask().word(TASK, task), Err(12)));
    of_flash.chain(of_tasks).collect()
}

/// The book's numbers, 11, 12, 36 and on, in order.
fn places() -> Vec<Asked> {
    let mut no_version = two();
    no_version[0][1] = 4;
    let mut no_model = two();
    no_model[0][MODEL] = 2;
    let other = ask().word(TASK, 6);
    vec![
        (no_version, other.word(0, 7), Err(38)),
        (no_model, other.word(0, 7), Err(37)),
        (two(), other.word(0, 7), Err(11)),
        (two(), other.word(BASIS, 2), Err(12)),
        (two(), ask().word(BASIS, 2).at(0.0), Err(36)),
        (two(), ask().at(0.0).under(0.0), Err(13)),
        (two(), ask().at(273.15).under(99.0), Err(22)),
    ]
}

/// A step, none and a number.
fn three() -> Vec<Asked> {
    vec![
        alone(250_000.0, 249_950.0, Ok((up(1), 0))),
        alone(300_000.0, 100.0, Ok((Distance::None, 1000))),
        alone(300_000.0, 99.0, Err(23)),
    ]
}
