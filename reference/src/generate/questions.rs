//! Questions: near the bubble and dew points of the book, at the boundaries, wild, and damaged for each of the numbers 10 to 23.

use super::feeds::{self, Absent};
use super::{beside, numbers, rice, Rng};
use crate::helpers;
use crate::named::model::ActivityModel;
use crate::named::solvers::{activity_bubble_pressure, activity_dew_pressure, ActivityOptions};
use crate::sheet::blocks::{bytes_of, seal, words_of, Rule, Words, BLOCK};
use crate::sheet::question::{
    BASIS, BRACKET, BY_MOLES, ENERGY_TOLERANCE, FRACTIONS, K_VALUES, MAX_ITERATIONS, MAX_TEMPERATURE_ITERATIONS,
    PRESSURE, TASK, TEMPERATURE, TM_THRESHOLD, TOLERANCE,
};
use crate::sheet::{self, Book, ANSWER_BYTES};
use crate::types::Temperature;

/// The model's range, K and Pa.
const T_RANGE: [f64; 2] = [273.16, 450.0];
const P_RANGE: [f64; 2] = [100.0, 500_000.0];

/// `max_iterations` and `max_temperature_iterations`: mostly enough.
const LIMITS: [u64; 16] = [1000, 1000, 1000, 1000, 500, 500, 500, 200, 200, 200, 200, 100, 50, 20, 2, 1];
const HIGHEST_LIMIT: u64 = 1_000_000;

/// A question whose check is not yet made, and the room for its answer.
#[derive(Debug, Clone)]
pub struct Draft {
    pub words: Words,
    /// Its book's.
    pub rule: Rule,
    pub room: usize,
    /// Bytes instead of a sealed block.
    pub bytes: Option<Vec<u8>>,
}

impl Draft {
    pub fn put(&mut self, at: usize, v: f64) {
        self.words[at] = v.to_bits();
    }

    pub(super) fn get(&self, at: usize) -> f64 {
        f64::from_bits(self.words[at])
    }

    pub fn put_all(&mut self, at: usize, values: &[f64]) {
        for (k, v) in values.iter().enumerate() {
            self.put(at + k, *v);
        }
    }

    fn sealed(&self) -> Vec<u8> {
        let mut words = self.words;
        seal(&mut words, self.rule);
        bytes_of(&words).to_vec()
    }

    pub fn question(&self) -> Vec<u8> {
        self.bytes.clone().unwrap_or_else(|| self.sealed())
    }
}

/// What the core's user would ask: near saturation, with ordinary options.
pub fn realistic(rng: &mut Rng, book: &Book, task: u64) -> Draft {
    let feed = feeds::feed(rng, book.solvents.len());
    with_feed(rng, book, task, &feed)
}

/// As `realistic`, with one solvent absent where there are two.
pub fn without(rng: &mut Rng, book: &Book, task: u64, absent: usize) -> Draft {
    let n = book.solvents.len();
    let mut feed = feeds::feed_with(rng, n, Absent::None);
    if n > 1 {
        feed[absent] = 0.0;
        feed = helpers::shares(feed);
        feed[absent] = rng.pick(&[0.0, -0.0]);
    }
    with_feed(rng, book, task, &feed)
}

/// As `realistic`, with one solvent as a trace near the smallest floats.
pub fn with_trace(rng: &mut Rng, book: &Book, task: u64, trace: usize) -> Draft {
    let n = book.solvents.len();
    let mut feed = feeds::feed_with(rng, n, Absent::None);
    if n > 1 {
        feed[trace] = 0.0;
        feed = helpers::shares(feed);
        feed[trace] = rng.decade(-323.0, -290.0);
    }
    with_feed(rng, book, task, &feed)
}

pub fn with_feed(rng: &mut Rng, book: &Book, task: u64, feed: &[f64]) -> Draft {
    let n = feed.len();
    let mut draft = options(rng, task);
    draft.rule = book.rule;
    draft.put_all(FRACTIONS, feed);
    let model = book.model().with_fractions(feed);
    match (task, &model) {
        (8 | 9, _) => split(rng, &mut draft, n),
        (_, Ok(model)) => state(rng, &mut draft, model, task),
        _ => {}
    }
    draft
}

/// Kind, task and options, a feed by moles; words that are not read may hold anything.
fn options(rng: &mut Rng, task: u64) -> Draft {
    let junk = rng.junk();
    let words = std::array::from_fn(|_| if junk { rng.bits() } else { 0 });
    let mut draft = Draft { words, rule: Rule::Plain, room: room(rng), bytes: None };
    draft.words[0] = 8;
    draft.words[TASK] = task;
    draft.words[BASIS] = BY_MOLES;
    draft.put(TEMPERATURE, rng.range(280.0, 440.0));
    draft.put(PRESSURE, rng.decade(3.0, 5.5));
    draft.words[MAX_ITERATIONS] = rng.pick(&LIMITS);
    draft.words[MAX_TEMPERATURE_ITERATIONS] = rng.pick(&LIMITS);
    let finest = if rng.one_in(8) { -15.0 } else { -12.0 };
    draft.put(TOLERANCE, rng.decade(finest, -6.0).min(1e-6));
    draft.put(ENERGY_TOLERANCE, 1e-10);
    draft.put(TM_THRESHOLD, -rng.pick(&[1e-8, 1e-8, 1e-8, 1e-10, 1e-6, 1e-3]));
    draft.put_all(BRACKET, &T_RANGE);
    draft
}

fn room(rng: &mut Rng) -> usize {
    rng.pick(&[ANSWER_BYTES, ANSWER_BYTES, ANSWER_BYTES, ANSWER_BYTES + 1, ANSWER_BYTES + 700])
}

/// Temperature and pressure of tasks 1 to 7.
fn state(rng: &mut Rng, draft: &mut Draft, model: &ActivityModel, task: u64) {
    let t = ordinary_temperature(rng, model);
    let bubble = bubble(model, t).unwrap_or_else(|| rng.decade(3.0, 5.5));
    draft.put(TEMPERATURE, t);
    draft.put(PRESSURE, bubble);
    match task {
        4 | 5 => bracket(rng, draft, model, t, bubble, task),
        7 => {
            let dew = dew(model, t).unwrap_or(bubble * rng.unit()).max(P_RANGE[0]);
            draft.put(PRESSURE, between(rng, dew, bubble));
        }
        _ => {}
    }
}

/// Where the bubble pressure is in the model's range, if a few tries find one.
fn ordinary_temperature(rng: &mut Rng, model: &ActivityModel) -> f64 {
    let mut t = rng.range(280.0, 445.0);
    for _ in 0..6 {
        if bubble(model, t).is_some() {
            break;
        }
        t = rng.range(280.0, 445.0);
    }
    t
}

fn bubble(model: &ActivityModel, t: f64) -> Option<f64> {
    Some(activity_bubble_pressure(model, Temperature::new(t).ok()?).ok()?.pressure_pa)
}

fn dew(model: &ActivityModel, t: f64) -> Option<f64> {
    let options = ActivityOptions { max_iterations: 200, tolerance: 1e-10, ..ActivityOptions::default() };
    Some(activity_dew_pressure(model, Temperature::new(t).ok()?, options).ok()?.pressure_pa)
}

/// A pressure between dew and bubble point, at one of them, or a little outside.
fn between(rng: &mut Rng, dew: f64, bubble: f64) -> f64 {
    let along = |u: f64| helpers::exp(helpers::ln(dew) + u * (helpers::ln(bubble) - helpers::ln(dew)));
    match rng.below(14) {
        0 => bubble,
        1 => dew,
        2 => beside(rng, bubble),
        3 => beside(rng, dew),
        4 => along(rng.decade(-14.0, -2.0)),
        5 => along(1.0 - rng.decade(-14.0, -2.0)),
        6..=7 => along(rng.range(-0.5, 1.5)),
        _ => along(rng.unit()),
    }
}

/// The pressure of a saturation point at t, and a bracket that mostly holds it.
fn bracket(rng: &mut Rng, draft: &mut Draft, model: &ActivityModel, t: f64, bubble: f64, task: u64) {
    if task == 5 {
        draft.put(PRESSURE, dew(model, t).unwrap_or(bubble));
    }
    let [low, high] = common_range(draft, model);
    let [low, high] = match rng.below(8) {
        0 => [low.max(t - 5.0), high.min(t + rng.range(1.0, 30.0))],
        1 => [low.max(t - rng.range(1.0, 30.0)), high.min(t + 5.0)],
        // At an end, or outside.
        2 => [t, high],
        3 => [low, t],
        4 => [low, rng.range(low, high)],
        _ => [low, high],
    };
    draft.put_all(BRACKET, &[low, high]);
}

/// Temperatures that every correlation covers, as far as the ends can be found out by trying.
fn common_range(draft: &Draft, model: &ActivityModel) -> [f64; 2] {
    let fits = |t: f64| Temperature::new(t).is_ok_and(|t| model.check_temperature(t).is_ok());
    let mut range = [draft.get(BRACKET), draft.get(BRACKET + 1)];
    for liquid in model.liquids() {
        for [low, high] in [liquid.vapor_pressure_range(), liquid.liquid_density_range()] {
            range = [range[0].max(low), range[1].min(high)];
        }
    }
    if fits(range[0]) && fits(range[1]) {
        range
    } else {
        T_RANGE
    }
}

/// Tasks 8 and 9.
fn split(rng: &mut Rng, draft: &mut Draft, n: usize) {
    let (z, k) = rice::split(rng, n);
    // Half of the feeds are those of the other tasks.
    if rng.one_in(2) {
        draft.put_all(FRACTIONS, &z);
    }
    draft.put_all(K_VALUES, &k);
    if rng.one_in(4) {
        draft.words[MAX_ITERATIONS] = rice::limit(rng);
    }
}

/// The highest limits, where those it has are enough: with others a call might take seconds.
pub fn make_patient(draft: &mut Draft, book: &[u8]) {
    if sheet::answer(book, &draft.question(), &mut [0; ANSWER_BYTES]) == 0 {
        draft.words[MAX_ITERATIONS] = HIGHEST_LIMIT;
        draft.words[MAX_TEMPERATURE_ITERATIONS] = HIGHEST_LIMIT;
    }
}

/// Limits low enough that a changed tolerance doesn't keep the call busy.
pub fn quick(mut question: Vec<u8>, rule: Rule) -> Vec<u8> {
    for block in question.chunks_exact_mut(BLOCK) {
        let mut words = words_of(block);
        words[MAX_ITERATIONS] = words[MAX_ITERATIONS].min(300);
        words[MAX_TEMPERATURE_ITERATIONS] = words[MAX_TEMPERATURE_ITERATIONS].min(60);
        seal(&mut words, rule);
        block.copy_from_slice(&bytes_of(&words));
    }
    question
}

/// On either side of a question's edge.
pub fn at_the_edge(rng: &mut Rng, draft: &mut Draft) {
    let sum = FRACTIONS + rng.below(2);
    match rng.below(12) {
        0 => draft.put(TEMPERATURE, rng.pick(&T_RANGE)),
        1 => {
            let t = rng.pick(&T_RANGE);
            draft.put(TEMPERATURE, beside(rng, t));
        }
        2 => draft.put(PRESSURE, rng.pick(&P_RANGE)),
        3 => {
            let p = rng.pick(&P_RANGE);
            draft.put(PRESSURE, beside(rng, p));
        }
        4 => draft.words[MAX_ITERATIONS] = rng.pick(&[1, 2, 3, HIGHEST_LIMIT + 1]),
        5 => draft.words[MAX_TEMPERATURE_ITERATIONS] = rng.pick(&[1, 2, 3, HIGHEST_LIMIT + 1]),
        6 => draft.put(TOLERANCE, beside(rng, 1e-6)),
        7 => draft.put(TM_THRESHOLD, -f64::from_bits(rng.below(2) as u64)),
        8 => draft.put(sum, draft.get(sum) + rng.sign() * beside(rng, 1e-10)),
        9 => draft.put(BRACKET, beside(rng, T_RANGE[0])),
        10 => draft.put(BRACKET + 1, beside(rng, T_RANGE[1])),
        _ => draft.put(BRACKET, beside(rng, draft.get(BRACKET + 1))),
    }
}

/// One or two words of any bits.
pub fn make_wild(rng: &mut Rng, draft: &mut Draft) {
    for _ in 0..rng.between(1, 2) {
        let at = rng.between(TEMPERATURE, K_VALUES + 7);
        // A limit of any bits would mostly be refused or never end.
        if at != MAX_ITERATIONS && at != MAX_TEMPERATURE_ITERATIONS {
            draft.put(at, if rng.one_in(2) { numbers::any_bits(rng) } else { numbers::finite(rng) });
        }
    }
    if rng.one_in(3) {
        draft.put(TEMPERATURE, rng.decade(-3.0, 6.0));
    }
}

/// One thing wrong for the number.
pub fn damage(rng: &mut Rng, draft: &mut Draft, number: u32) {
    let fraction = FRACTIONS + rng.below(2);
    let k = K_VALUES + rng.below(2);
    let not_positive = [0.0, -0.0, -1.0, -300.0, f64::NAN, f64::INFINITY, f64::NEG_INFINITY, -f64::from_bits(1)];
    match number {
        10 => draft.room = rng.pick(&[0, 1, 512, ANSWER_BYTES - 512, ANSWER_BYTES - 1]),
        11 => damage_block(rng, draft),
        12 => draft.words[TASK] = rng.pick(&[0, 10, 11, 256, 1 << 32 | 1, u64::MAX]),
        13 => draft.put(TEMPERATURE, rng.pick(&not_positive)),
        14 => draft.put(PRESSURE, rng.pick(&not_positive)),
        15 => draft.put(if rng.one_in(2) { fraction } else { k }, numbers::not_finite(rng)),
        16 => draft.put(fraction, -rng.decade(-320.0, 1.0)),
        17 => draft.put(k, rng.pick(&[0.0, -0.0, -1.0, -f64::from_bits(1)])),
        18 => draft.put(fraction, draft.get(fraction) + rng.decade(-9.5, 1.0)),
        19 => damage_options(rng, draft),
        20 => draft.words[rng.pick(&[MAX_ITERATIONS, MAX_TEMPERATURE_ITERATIONS])] = 0,
        21 => {
            let at = rng.pick(&[MAX_ITERATIONS, MAX_TEMPERATURE_ITERATIONS]);
            draft.words[at] = rng.pick(&[HIGHEST_LIMIT + 1, 1 << 32, u64::MAX]);
        }
        22 => draft.put(TEMPERATURE, rng.pick(&[273.15, 450.01, 1e-300, 1e300])),
        _ => draft.put(PRESSURE, rng.pick(&[99.9, 500_000.1, 1e-300, 1e300])),
    }
}

fn damage_block(rng: &mut Rng, draft: &mut Draft) {
    draft.words[0] = if rng.one_in(4) { rng.pick(&[0, 9, 1 << 32 | 8]) } else { 8 };
    let mut bytes = draft.sealed();
    match rng.below(5) {
        0 => bytes.clear(),
        1 => drop(bytes.pop()),
        2 => bytes.push(0),
        3 => {
            let at = rng.below(bytes.len());
            bytes[at] ^= 1 << rng.below(8);
        }
        _ => {}
    }
    draft.bytes = Some(bytes);
}

fn damage_options(rng: &mut Rng, draft: &mut Draft) {
    let small = [0.0, -0.0, -1e-9, 1.1e-6, 1.0, f64::NAN, f64::INFINITY];
    match rng.below(6) {
        0 => draft.put(TOLERANCE, rng.pick(&small)),
        1 => draft.put(ENERGY_TOLERANCE, rng.pick(&small)),
        2 => draft.put(TM_THRESHOLD, rng.pick(&[0.0, -0.0, 1e-8, f64::NAN, f64::NEG_INFINITY])),
        3 => draft.put(BRACKET, rng.pick(&[273.15, 450.0, f64::NAN, f64::NEG_INFINITY])),
        4 => draft.put(BRACKET + 1, rng.pick(&[450.1, 273.16, f64::NAN, f64::INFINITY])),
        _ => draft.words.swap(BRACKET, BRACKET + 1),
    }
}
