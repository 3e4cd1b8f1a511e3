//! Stand-ins for the crate thermo-types and for the strings of the named Rust.

/// J/(mol K).
pub const MOLAR_GAS_CONSTANT: f64 = 8.31446261815324;

/// Kelvin; finite and positive.
#[derive(Debug, Clone, Copy, PartialEq)]
pub struct Temperature(f64);

impl Temperature {
    pub fn new(kelvin: f64) -> Result<Self, InputError> {
        if kelvin.is_finite() && kelvin > 0.0 {
            Ok(Self(kelvin))
        } else {
            Err(InputError::Temperature)
        }
    }
    pub fn value(self) -> f64 {
        self.0
    }
}

/// Pascal; finite and positive.
#[derive(Debug, Clone, Copy, PartialEq)]
pub struct Pressure(f64);

impl Pressure {
    pub fn new(pascal: f64) -> Result<Self, InputError> {
        if pascal.is_finite() && pascal > 0.0 {
            Ok(Self(pascal))
        } else {
            Err(InputError::Pressure)
        }
    }
    pub fn value(self) -> f64 {
        self.0
    }
}

/// CAS number without hyphens.
#[derive(Debug, Clone, Copy, PartialEq, Eq)]
pub struct ComponentId(pub u64);

/// Of a component only its identity is kept.
pub type Component = ComponentId;

/// Caloric states are left out.
pub type ActivityPhaseState = ();

#[derive(Debug, Clone, Copy, PartialEq, Eq)]
pub enum Phase {
    Liquid,
    Vapor,
}

#[derive(Debug, Clone, Copy, PartialEq, Eq)]
pub enum ValidityStatus {
    Unassessed,
    WithinDeclaredDomain,
    Extrapolated,
}

impl ValidityStatus {
    /// Word 35.
    pub fn word(self) -> u64 {
        match self {
            Self::Unassessed => 0,
            Self::WithinDeclaredDomain => 1,
            Self::Extrapolated => 2,
        }
    }
}

/// The notes of a flash.
#[derive(Debug, Clone, Copy, PartialEq, Eq)]
pub enum Diagnostic {
    GammaPhi,
    SplitAtSaturationBoundary,
    LiquidTpdFiniteTrials,
}

impl Diagnostic {
    /// Bit of word 13.
    pub fn bit(self) -> u64 {
        match self {
            Self::GammaPhi => 1,
            Self::SplitAtSaturationBoundary => 2,
            Self::LiquidTpdFiniteTrials => 4,
        }
    }
}

#[derive(Debug, Clone, Copy, PartialEq, Eq)]
pub enum InputError {
    Temperature,
    Pressure,
    NonFinite(&'static str),
    Negative(&'static str),
    KValue,
    NotNormalized,
    EmptyComposition,
    ComponentMismatch,
    DuplicateComponent,
}

/// What a calculation can be refused for; one case for each number.
#[derive(Debug, Clone, Copy, PartialEq, Eq)]
pub enum CalculationError {
    TemperatureNotPositive,
    PressureNotPositive,
    NonFinite,
    Negative,
    KNotPositive,
    NotNormalized,
    Options,
    LimitZero,
    TemperatureOutside,
    PressureOutside,
    AlphaNotPositive,
    ResultNotFinite,
    NotBracketed,
    NotConverged,
    OneSidedK,
    UnstableLiquid,
    FractionOutside,
    /// A sum that isn't finite and positive.
    SumNotNormalizable,
    /// Cannot arise in a book.
    Shape,
}

impl CalculationError {
    /// The refusal number of docs/FORMAT.md.
    pub fn number(self) -> u32 {
        match self {
            Self::TemperatureNotPositive => 13,
            Self::PressureNotPositive => 14,
            Self::NonFinite => 15,
            Self::Negative => 16,
            Self::KNotPositive => 17,
            Self::NotNormalized => 18,
            Self::Options => 19,
            Self::LimitZero => 20,
            Self::TemperatureOutside => 22,
            Self::PressureOutside => 23,
            Self::AlphaNotPositive => 24,
            Self::ResultNotFinite => 25,
            Self::NotBracketed => 26,
            Self::NotConverged => 27,
            Self::OneSidedK => 28,
            Self::UnstableLiquid => 29,
            Self::FractionOutside => 30,
            Self::SumNotNormalizable => 34,
            Self::Shape => unreachable!("a shape error cannot arise in a book"),
        }
    }
}

impl From<InputError> for CalculationError {
    fn from(error: InputError) -> Self {
        match error {
            InputError::Temperature => Self::TemperatureNotPositive,
            InputError::Pressure => Self::PressureNotPositive,
            InputError::NonFinite(_) => Self::NonFinite,
            InputError::Negative(_) => Self::Negative,
            InputError::KValue => Self::KNotPositive,
            InputError::NotNormalized => Self::NotNormalized,
            InputError::EmptyComposition | InputError::ComponentMismatch | InputError::DuplicateComponent => {
                Self::Shape
            }
        }
    }
}
