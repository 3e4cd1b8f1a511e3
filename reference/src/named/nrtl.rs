mod wilson;

use std::ops::{Add, Div, Mul, Neg, Sub};

use super::composition::COMPOSITION_SUM_TOLERANCE;
use super::liquid::{AlphaTerms, TauTerms};
use crate::evaluations;
use crate::helpers::{HelperNumbers, SumFromZero};
use crate::types::{
    CalculationError as Error, ComponentId, InputError, Temperature, ValidityStatus, MOLAR_GAS_CONSTANT as R,
};

use wilson::Wilson;

include!(concat!(env!("OUT_DIR"), "/nrtl.rs"));

/// Regression interval (K) and whether it was inferred.
pub type Interval = ([f64; 2], bool);

/// One pair block: i < j, directed τ terms, α terms of both directions.
#[derive(Debug, Clone, PartialEq)]
pub struct Pair {
    pub i: usize,
    pub j: usize,
    pub tau_ij: [f64; 4],
    pub tau_ji: [f64; 4],
    pub alpha_ij: [f64; 2],
    pub alpha_ji: [f64; 2],
    pub interval: Option<Interval>,
}

/// One pair block of a Wilson book: a and b (K) of both directions.
#[derive(Debug, Clone, PartialEq)]
pub struct WilsonPair {
    pub i: usize,
    pub j: usize,
    pub ij: [f64; 2],
    pub ji: [f64; 2],
    pub interval: Option<Interval>,
}

impl NrtlParameters {
    pub fn of_book(ids: Vec<ComponentId>, pairs: &[Pair]) -> Result<Self, Error> {
        let n = ids.len();
        let mut tau = vec![vec![ZERO_TAU; n]; n];
        let mut alpha = vec![vec![ZERO_ALPHA; n]; n];
        let mut regression = vec![vec![None; n]; n];
        for pair in pairs {
            let (i, j) = (pair.i, pair.j);
            tau[i][j] = tau_terms(pair.tau_ij);
            tau[j][i] = tau_terms(pair.tau_ji);
            alpha[i][j] = alpha_terms(pair.alpha_ij);
            alpha[j][i] = alpha_terms(pair.alpha_ji);
            let interval = pair.interval.map(|(bounds, inferred)| RegressionInterval { bounds, inferred });
            regression[i][j] = interval;
            regression[j][i] = interval;
        }
        Self::checked(ids, tau, alpha, regression)
    }
}

impl NrtlModel {
    /// The Wilson model of a book. Of the NRTL parameters only the intervals count.
    pub fn of_wilson_book(ids: Vec<ComponentId>, pairs: &[WilsonPair]) -> Result<Self, Error> {
        let wilson = Wilson::of_book(ids.len(), pairs);
        let none = |pair: &WilsonPair| Pair {
            i: pair.i,
            j: pair.j,
            tau_ij: [0.0; 4],
            tau_ji: [0.0; 4],
            alpha_ij: [0.0; 2],
            alpha_ji: [0.0; 2],
            interval: pair.interval,
        };
        let intervals: Vec<Pair> = pairs.iter().map(none).collect();
        Ok(Self { wilson: Some(wilson), ..Self::new(NrtlParameters::of_book(ids, &intervals)?) })
    }
}

fn tau_terms([t0, t1, t2, t3]: [f64; 4]) -> TauTerms {
    TauTerms { t0, t1, t2, t3 }
}

fn alpha_terms([a0, a1]: [f64; 2]) -> AlphaTerms {
    AlphaTerms { a0, a1 }
}
