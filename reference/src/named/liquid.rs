use crate::helpers::HelperNumbers;
use crate::types::{CalculationError, Temperature};

include!(concat!(env!("OUT_DIR"), "/liquid.rs"));

/// One correlation record of a solvent block: t_r (K), reducing value, range (K), coefficients and exponents.
#[derive(Debug, Clone, PartialEq)]
pub struct Correlation {
    pub t_r: f64,
    pub reducing_value: f64,
    pub range: [f64; 2],
    pub n: Vec<f64>,
    pub exponents: Vec<f64>,
}

impl PureLiquid {
    pub fn of_book(vapor_pressure: &Correlation, density: &Correlation) -> Self {
        Self(PureRecord { vapor_pressure: ancillary(vapor_pressure), saturated_liquid_density: ancillary(density) })
    }
}

fn ancillary(record: &Correlation) -> Ancillary {
    Ancillary {
        t_r: record.t_r,
        reducing_value: record.reducing_value,
        n: record.n.clone(),
        t: record.exponents.clone(),
        range: record.range,
    }
}
