//! Where in a calculation `normalize` stands. The step at which it refused is noted, for the counts of `vanish`.

use std::cell::Cell;

use crate::types::CalculationError;

#[derive(Debug, Clone, Copy, PartialEq, Eq)]
pub enum Step {
    DewLoop,
    DewEnd,
    SplitLiquid,
    SplitVapor,
}

pub const STEPS: [Step; 4] = [Step::DewLoop, Step::DewEnd, Step::SplitLiquid, Step::SplitVapor];

thread_local! {
    static REFUSED: Cell<Option<Step>> = const { Cell::new(None) };
}

/// What `normalize` found at a step.
pub fn at(step: Step, found: Result<Vec<f64>, CalculationError>) -> Result<Vec<f64>, CalculationError> {
    if found.is_err() {
        REFUSED.set(Some(step));
    }
    found
}

/// The step that last refused, and no longer noted.
pub fn refused() -> Option<Step> {
    REFUSED.take()
}
