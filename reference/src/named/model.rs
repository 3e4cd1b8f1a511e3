use super::composition::COMPOSITION_SUM_TOLERANCE;
use super::liquid::PureLiquid;
use super::nrtl::NrtlModel;
use crate::helpers::SumFromZero;
use crate::types::{CalculationError as Error, Component, InputError, Pressure, Temperature};

include!(concat!(env!("OUT_DIR"), "/model.rs"));

impl ActivityModel {
    /// The model of a book; its feed is set by `with_fractions`.
    pub fn of_book(components: Vec<Component>, liquids: Vec<PureLiquid>, nrtl: NrtlModel) -> Self {
        let fractions = vec![0.0; components.len()];
        Self { components, liquids, nrtl, fractions }
    }
    pub fn liquids(&self) -> &[PureLiquid] {
        &self.liquids
    }
}
