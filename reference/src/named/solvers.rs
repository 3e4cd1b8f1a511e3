use super::model::{ActivityModel, PureLiquidState, ACTIVITY_PRESSURE_RANGE_PA, ACTIVITY_TEMPERATURE_RANGE_K};
use super::nrtl::ExcessState;
use super::rachford_rice::{rachford_rice_negative, RACHFORD_RICE_MAX_ITERATIONS};
use crate::helpers::{normalize, positive, HelperNumbers, SumFromZero};
use crate::steps::{self, Step};
use crate::types::{ActivityPhaseState, CalculationError as Error, Diagnostic, Phase, Pressure, Temperature};

include!(concat!(env!("OUT_DIR"), "/solvers.rs"));
