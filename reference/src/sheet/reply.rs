//! The tasks: each calls the named function and puts its result into answer and trial blocks.

use super::blocks::Words;
use super::question::Question;
use super::Book;
use crate::evaluations;
use crate::helpers::bits_of;
use crate::named::model::ActivityModel;
use crate::named::nrtl::ExcessState;
use crate::named::rachford_rice::{rachford_rice, rachford_rice_negative, RachfordRiceOutcome, RachfordRiceSolution};
use crate::named::solvers::{
    activity_bubble_pressure, activity_bubble_temperature, activity_dew_pressure, activity_dew_temperature,
    activity_tp_flash, liquid_stability, ActivitySaturation, ActivityTpFlash, LiquidStability, LiquidStabilityTrial,
};
use crate::types::{CalculationError as Error, Phase, Pressure, Temperature};

/// Places of the answer's words.
pub const REFUSAL: usize = 2;
pub const OUTCOME: usize = 3;
pub const T: usize = 4;
pub const P: usize = 5;
pub const BUBBLE: usize = 6;
pub const DEW: usize = 7;
pub const ITERATIONS: usize = 8;
pub const RESIDUAL: usize = 9;
pub const BALANCE: usize = 10;
pub const VAPOR_FRACTION: usize = 11;
pub const TRIALS: usize = 12;
pub const NOTES: usize = 13;
pub const LIQUID: usize = 14;
pub const VAPOR: usize = 22;
pub const REDUCED_GIBBS: usize = 30;
pub const VALIDITY: usize = 35;
pub const INFERRED: usize = 36;
pub const STABLE: usize = 37;
/// Activity evaluations that a flash began.
pub const EVALUATIONS: usize = 38;

/// Outcomes of word 3.
const LIQUID_ONLY: u64 = 1;
const VAPOR_ONLY: u64 = 2;
const BOTH: u64 = 3;

type Blocks = Vec<Words>;

/// Answer block and trials, checks not yet made; `feed` has mole fractions.
pub fn reply(book: &Book, question: &Question, feed: &[f64]) -> Result<Blocks, Error> {
    let k_values = question.k_values(feed.len());
    let task = question.task();
    let mut blocks = match task {
        8 => constrained_split(&rachford_rice(feed, &k_values, limit(question))?),
        9 => vec![split(&rachford_rice_negative(feed, &k_values, limit(question))?)],
        _ => with_feed(&book.model().with_fractions(feed)?, question)?,
    };
    blocks[0][0] = 9;
    blocks[0][1] = task;
    Ok(blocks)
}

/// Tasks 1 to 7.
fn with_feed(model: &ActivityModel, question: &Question) -> Result<Blocks, Error> {
    let options = question.options();
    let temperature = || Temperature::new(question.temperature());
    let pressure = || Pressure::new(question.pressure());
    match question.task() {
        1 => activity(&model.nrtl().excess_at(temperature()?, model.fractions())?),
        2 => Ok(saturation(&activity_bubble_pressure(model, temperature()?)?)),
        3 => Ok(saturation(&activity_dew_pressure(model, temperature()?, options)?)),
        4 => Ok(saturation(&activity_bubble_temperature(model, pressure()?, options)?)),
        5 => Ok(saturation(&activity_dew_temperature(model, pressure()?, options)?)),
        6 => Ok(stability(&liquid_stability(model, temperature()?, model.fractions(), options)?)),
        _ => {
            let (t, p) = (temperature()?, pressure()?);
            let (found, begun) = evaluations::counted(|| activity_tp_flash(model, t, p, options));
            Ok(flash(&found?, begun))
        }
    }
}

fn limit(question: &Question) -> usize {
    question.max_iterations() as usize
}

fn put(words: &mut Words, at: usize, value: f64) {
    words[at] = bits_of(value);
}

fn put_all(words: &mut Words, at: usize, values: &[f64]) {
    for (k, value) in values.iter().enumerate() {
        put(words, at + k, *value);
    }
}

/// Task 1. Every float of the answer is finite (25).
fn activity(state: &ExcessState) -> Result<Blocks, Error> {
    let energies = [
        state.reduced_excess_gibbs,
        state.excess_gibbs,
        state.excess_enthalpy,
        state.excess_entropy,
        state.excess_heat_capacity,
    ];
    let slopes = &state.d_ln_activity_coefficients_dt;
    let floats = state.ln_activity_coefficients.iter().chain(slopes).chain(&energies);
    if !state.temperature_k.is_finite() || floats.into_iter().any(|v| !v.is_finite()) {
        return Err(Error::ResultNotFinite);
    }
    let mut words = [0; 64];
    put(&mut words, T, state.temperature_k);
    put_all(&mut words, LIQUID, &state.ln_activity_coefficients);
    put_all(&mut words, VAPOR, slopes);
    put_all(&mut words, REDUCED_GIBBS, &energies);
    words[VALIDITY] = state.validity.word();
    words[INFERRED] = state.inferred_regression_interval.into();
    Ok(vec![words])
}

/// Tasks 2 to 5.
fn saturation(point: &ActivitySaturation) -> Blocks {
    let mut words = [0; 64];
    put(&mut words, T, point.temperature_k);
    put(&mut words, P, point.pressure_pa);
    words[ITERATIONS] = point.iterations as u64;
    put(&mut words, RESIDUAL, point.max_ln_fugacity_residual);
    put_all(&mut words, LIQUID, &point.liquid);
    put_all(&mut words, VAPOR, &point.vapor);
    vec![words]
}

/// Task 6.
fn stability(found: &LiquidStability) -> Blocks {
    let mut blocks = vec![[0; 64]];
    add_trials(&mut blocks, found);
    blocks
}

fn add_trials(blocks: &mut Blocks, found: &LiquidStability) {
    blocks[0][TRIALS] = found.trials.len() as u64;
    blocks[0][STABLE] = found.stable_in_trials.into();
    blocks.extend(found.trials.iter().map(trial));
}

fn trial(found: &LiquidStabilityTrial) -> Words {
    let mut words = [0; 64];
    words[0] = 10;
    words[1] = found.component as u64;
    put(&mut words, 2, found.tangent_plane_distance);
    words[3] = found.iterations as u64;
    words[4] = found.trivial.into();
    put_all(&mut words, 5, &found.composition);
    words
}

/// Task 7.
fn flash(found: &ActivityTpFlash, begun: u64) -> Blocks {
    let mut words = [0; 64];
    words[EVALUATIONS] = begun;
    put(&mut words, T, found.temperature_k);
    put(&mut words, P, found.pressure_pa);
    put(&mut words, BUBBLE, found.bubble_pressure_pa);
    put(&mut words, DEW, found.dew_pressure_pa);
    words[ITERATIONS] = found.iterations as u64;
    put(&mut words, RESIDUAL, found.max_ln_fugacity_residual);
    put(&mut words, BALANCE, found.max_component_balance_residual);
    put(&mut words, VAPOR_FRACTION, found.vapor_fraction());
    words[NOTES] = found.diagnostics.iter().fold(0, |bits, note| bits | note.bit());
    for phase in &found.phases {
        let (outcome, at) = if phase.phase == Phase::Liquid { (LIQUID_ONLY, LIQUID) } else { (VAPOR_ONLY, VAPOR) };
        // Liquid and vapor together make 3.
        words[OUTCOME] |= outcome;
        put_all(&mut words, at, &phase.composition);
    }
    let mut blocks = vec![words];
    if let Some(tested) = &found.liquid_stability {
        add_trials(&mut blocks, tested);
    }
    blocks
}

/// Task 8.
fn constrained_split(found: &RachfordRiceOutcome) -> Blocks {
    let mut words = [0; 64];
    match found {
        RachfordRiceOutcome::LiquidOnly => words[OUTCOME] = LIQUID_ONLY,
        RachfordRiceOutcome::VaporOnly => words[OUTCOME] = VAPOR_ONLY,
        RachfordRiceOutcome::TwoPhase(solution) => words = split(solution),
    }
    vec![words]
}

/// Task 9, and 8 with two phases.
fn split(found: &RachfordRiceSolution) -> Words {
    let mut words = [0; 64];
    words[OUTCOME] = BOTH;
    words[ITERATIONS] = found.iterations as u64;
    put(&mut words, RESIDUAL, found.residual);
    put(&mut words, VAPOR_FRACTION, found.vapor_fraction);
    put_all(&mut words, LIQUID, &found.liquid);
    put_all(&mut words, VAPOR, &found.vapor);
    words
}
