use crate::helpers::SumFromZero;
use crate::types::{CalculationError as Error, InputError};

include!(concat!(env!("OUT_DIR"), "/rachford_rice.rs"));
