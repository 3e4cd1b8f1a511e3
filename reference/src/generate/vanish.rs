//! Sheets of tasks 3, 5 and 7 whose partial terms vanish or overflow, or nearly so.

use super::books::{self, put, Draft, REDUCING, TAU};
use super::small::{bytes, constant, Ask};
use super::{questions, wilson, Rng};
use crate::sheet::blocks::Words;
use crate::sheet::book::VAPOR_PRESSURE;
use crate::sheet::{open_book, ANSWER_BYTES};
use crate::stage::Case;

const TASKS: [u64; 4] = [3, 3, 5, 7];

pub fn case(rng: &mut Rng) -> Case {
    match rng.below(10) {
        0 => dew_end(rng),
        1 => split_liquid(rng),
        _ => extreme(rng),
    }
}

/// A realistic book with vapor pressures or activity coefficients at the ends of the floats; one in four is a Wilson book.
fn extreme(rng: &mut Rng) -> Case {
    let n = rng.pick(&[1, 2, 2, 2, 3, 3, 4, 5, 6, 7, 8]);
    let of_wilson = rng.one_in(4);
    let mut draft = if of_wilson { wilson::realistic(rng, n) } else { books::realistic(rng, n) };
    let kind = rng.below(6);
    for i in 0..n {
        match kind {
            0 => reducing(rng, &mut draft, i, [-322.0, -305.0]),
            1 => reducing(rng, &mut draft, i, [303.0, 308.2]),
            2 => {
                let decades = rng.pick(&[[-322.0, -290.0], [290.0, 308.2], [6.0, 7.0], [6.0, 7.0]]);
                reducing(rng, &mut draft, i, decades);
            }
            3 if rng.one_in(n) => books::make_extreme(rng, &mut draft, i),
            4 if of_wilson => draft.pairs_of(i).into_iter().for_each(|at| small_lambdas(rng, &mut draft.blocks[at])),
            4 => strong_pairs(rng, &mut draft, i),
            _ => {}
        }
    }
    let book = draft.bytes();
    let opened = open_book(&book).expect("its questions pass");
    let task = rng.pick(&TASKS);
    let question = questions::realistic(rng, &opened, task);
    Case::Sheet { book, question: question.question(), room: ANSWER_BYTES }
}

fn reducing(rng: &mut Rng, draft: &mut Draft, i: usize, [low, high]: [f64; 2]) {
    put(&mut draft.blocks[1 + i], VAPOR_PRESSURE + REDUCING, rng.decade(low, high));
}

/// τ that bring ln γ to the ends of exp.
fn strong_pairs(rng: &mut Rng, draft: &mut Draft, i: usize) {
    for at in draft.pairs_of(i) {
        for direction in 0..2 {
            put(&mut draft.blocks[at], TAU + 4 * direction, rng.range(-60.0, 900.0));
        }
    }
}

/// Λ that bring ln γ of a trace to the ends of exp.
fn small_lambdas(rng: &mut Rng, words: &mut Words) {
    wilson::put_terms(words, &[rng.range(-745.0, 10.0), 0.0, rng.range(-745.0, 10.0), 0.0]);
}

fn asked(pressures: &[f64], tau: [f64; 2], ask: Ask) -> Case {
    Case::Sheet { book: bytes(&constant(pressures, tau)), question: ask.bytes(), room: ANSWER_BYTES }
}

/// Both vapor pressures a little below the largest float: γ p overflows once ln γ is above 0, which the tolerance lets pass.
fn dew_end(rng: &mut Rng) -> Case {
    let near = |rng: &mut Rng| f64::MAX * (1.0 - rng.decade(-12.0, -6.0));
    let pressures = [near(rng), near(rng)];
    let tau = [rng.decade(-9.0, -6.0), rng.decade(-9.0, -6.0)];
    let x = rng.unit();
    let ask = Ask::new(rng.pick(&[3, 3, 5]), &[x, 1.0 - x]).at(rng.range(280.0, 440.0)).float(13, 1e-6);
    asked(&pressures, tau, ask)
}

/// A trace below half the last place of 1 beside a K near 1e16: the vapor fraction is rounded to 1, where the trace's part of the
/// liquid is divided by 0.
fn split_liquid(rng: &mut Rng) -> Case {
    let p = rng.decade(2.1, 5.6);
    let pressures = [rng.decade(-300.0, -20.0), p * rng.decade(16.0, 16.4)];
    let ask = Ask::new(7, &[rng.range(5.5e-17, 1.1e-16), 1.0]).at(rng.range(280.0, 440.0)).under(p);
    asked(&pressures, [0.0, 0.0], ask)
}
