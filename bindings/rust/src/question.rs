//! Questions: a task with the inputs that it reads, put to a feed.

use crate::block::{Rule, Words, BLOCK};
use crate::format::question::{
    ENERGY_TOLERANCE, FEED, FRACTIONS, K_VALUES, LOW, MAX_ITERATIONS, MAX_TEMPERATURE_ITERATIONS, PRESSURE, TASK,
    TEMPERATURE, TM_THRESHOLD, TOLERANCE,
};
use crate::format::{feed, kind, task};
use crate::{Reason, Refusal, UpToEight};

/// A temperature in kelvin; any float, tested by the core.
#[derive(Debug, Clone, Copy, PartialEq, PartialOrd, Default)]
pub struct Kelvin(pub f64);

/// A pressure in pascals; any float, tested by the core.
#[derive(Debug, Clone, Copy, PartialEq, PartialOrd, Default)]
pub struct Pascal(pub f64);

/// How the solvers iterate. All of it is tested for every task that takes options, what the task doesn't use too.
#[derive(Debug, Clone, Copy, PartialEq)]
pub struct Options {
    /// Limit of a dew point, a trial or a flash; 1 to 1,000,000.
    pub max_iterations: u64,
    /// Above 0, up to 1e-6.
    pub tolerance: f64,
    /// Limit of a bubble or dew temperature; 1 to 1,000,000.
    pub max_temperature_iterations: u64,
    /// Above 0, up to 1e-6; used by no task.
    pub energy_tolerance: f64,
    /// Tangent-plane distance below which a trial finds the liquid unstable; negative.
    pub tm_threshold: f64,
    /// Where a bubble or dew temperature is looked for: low and high, within 273.16 to 450 K.
    pub bracket: [Kelvin; 2],
}

impl Default for Options {
    /// 500 and 200 iterations, tolerances 1e-13 and 1e-10, threshold -1e-8, 273.16 to 450 K.
    fn default() -> Self {
        Self {
            max_iterations: 500,
            tolerance: 1e-13,
            max_temperature_iterations: 200,
            energy_tolerance: 1e-10,
            tm_threshold: -1e-8,
            bracket: [Kelvin(273.16), Kelvin(450.0)],
        }
    }
}

/// What is asked of a feed, with the inputs that are read.
#[derive(Debug, Clone, Copy, PartialEq)]
#[non_exhaustive]
pub enum Task {
    /// 1: activity coefficients and excess properties.
    ExcessAt {
        /// Of the liquid.
        temperature: Kelvin,
    },
    /// 2: the pressure where the feed, a liquid, begins to boil.
    BubblePressure {
        /// Of the liquid.
        temperature: Kelvin,
    },
    /// 3: the pressure where the feed, a vapor, begins to condense.
    DewPressure {
        /// Of the vapor.
        temperature: Kelvin,
        /// Limit and tolerance.
        options: Options,
    },
    /// 4: the temperature where the feed, a liquid, begins to boil.
    BubbleTemperature {
        /// Of the liquid.
        pressure: Pascal,
        /// Limit, tolerance and bracket.
        options: Options,
    },
    /// 5: the temperature where the feed, a vapor, begins to condense.
    DewTemperature {
        /// Of the vapor.
        pressure: Pascal,
        /// Limits, tolerance and bracket.
        options: Options,
    },
    /// 6: tangent-plane trials of the feed as a liquid.
    LiquidStability {
        /// Of the liquid.
        temperature: Kelvin,
        /// Limit and threshold.
        options: Options,
    },
    /// 7: the phases of the feed.
    TpFlash {
        /// Of all phases.
        temperature: Kelvin,
        /// Of all phases.
        pressure: Pascal,
        /// Limit, tolerance and threshold.
        options: Options,
    },
    /// 8: the split for given K values.
    RachfordRice {
        /// Vapor over liquid, one for each solvent.
        k: UpToEight<f64>,
        /// At most 1,000,000.
        max_iterations: u64,
    },
    /// 9: the same with the vapor fraction outside 0 to 1 allowed.
    RachfordRiceNegative {
        /// Vapor over liquid, one for each solvent.
        k: UpToEight<f64>,
        /// At most 1,000,000.
        max_iterations: u64,
    },
}

impl Task {
    /// The task's number, 1 to 9.
    #[must_use]
    pub fn number(&self) -> u64 {
        match self {
            Self::ExcessAt { .. } => task::EXCESS_AT,
            Self::BubblePressure { .. } => task::BUBBLE_PRESSURE,
            Self::DewPressure { .. } => task::DEW_PRESSURE,
            Self::BubbleTemperature { .. } => task::BUBBLE_TEMPERATURE,
            Self::DewTemperature { .. } => task::DEW_TEMPERATURE,
            Self::LiquidStability { .. } => task::LIQUID_STABILITY,
            Self::TpFlash { .. } => task::TP_FLASH,
            Self::RachfordRice { .. } => task::RACHFORD_RICE,
            Self::RachfordRiceNegative { .. } => task::RACHFORD_RICE_NEGATIVE,
        }
    }

    /// Whether there is a K value for each solvent of a book.
    pub(crate) fn fits(&self, solvents: usize) -> Result<(), Refusal> {
        match self {
            Self::RachfordRice { k, .. } | Self::RachfordRiceNegative { k, .. } if k.len() != solvents => {
                Err(Reason::KLength { entries: k.len(), solvents }.into())
            }
            _ => Ok(()),
        }
    }
}

/// Fractions of a feed, one for each solvent of the book in its order, 0 for one that is absent. A plain row is of moles.
///
/// ```
/// use zektonk::Feed;
///
/// assert_eq!(Feed::from([0.5, 0.5]), Feed::Moles([0.5, 0.5].into()));
/// assert_eq!(Feed::mass([0.7, 0.3]).fractions()[0], 0.7);
/// ```
#[derive(Debug, Clone, Copy, PartialEq)]
pub enum Feed {
    /// Mole fractions.
    Moles(UpToEight<f64>),
    /// Mass fractions, which the core converts by the molar masses of a book of version 2.
    Mass(UpToEight<f64>),
}

impl Feed {
    /// A feed by mass.
    #[must_use]
    pub fn mass(fractions: impl Into<UpToEight<f64>>) -> Self {
        Self::Mass(fractions.into())
    }

    /// Its fractions, whatever they are of.
    #[must_use]
    pub fn fractions(&self) -> &UpToEight<f64> {
        match self {
            Self::Moles(fractions) | Self::Mass(fractions) => fractions,
        }
    }

    pub(crate) fn kind(&self) -> u64 {
        match self {
            Self::Moles(_) => feed::MOLES,
            Self::Mass(_) => feed::MASS,
        }
    }
}

impl<T: Into<UpToEight<f64>>> From<T> for Feed {
    fn from(fractions: T) -> Self {
        Self::Moles(fractions.into())
    }
}

/// A task put to a feed.
#[derive(Debug, Clone, Copy, PartialEq)]
pub struct Question {
    /// What is asked.
    pub task: Task,
    /// By moles or by mass.
    pub feed: Feed,
}

impl Question {
    /// A task put to a feed.
    #[must_use]
    pub fn new(task: Task, feed: impl Into<Feed>) -> Self {
        Self { task, feed: feed.into() }
    }

    /// Whether feed and K values have an entry for each solvent of a book.
    pub(crate) fn fits(&self, solvents: usize) -> Result<(), Refusal> {
        let entries = self.feed.fractions().len();
        if entries != solvents {
            return Err(Reason::FeedLength { entries, solvents }.into());
        }
        self.task.fits(solvents)
    }

    /// The question's block to a book of version 1 or 2. Words that the task doesn't read are 0.
    #[must_use]
    pub fn encode(&self) -> [u8; BLOCK] {
        self.encode_by(Rule::Plain)
    }

    /// The question's block, checked by the [rule](crate::Book::rule) of the book that is asked.
    #[must_use]
    pub fn encode_by(&self, rule: Rule) -> [u8; BLOCK] {
        let words = Words::new(kind::QUESTION).word(TASK, self.task.number());
        let words = words.floats(FRACTIONS, self.feed.fractions()).word(FEED, self.feed.kind());
        let heat = |words: Words, t: &Kelvin| words.float(TEMPERATURE, t.0);
        let press = |words: Words, p: &Pascal| words.float(PRESSURE, p.0);
        let words = match &self.task {
            Task::ExcessAt { temperature } | Task::BubblePressure { temperature } => heat(words, temperature),
            Task::DewPressure { temperature, options } | Task::LiquidStability { temperature, options } => {
                put_options(heat(words, temperature), options)
            }
            Task::BubbleTemperature { pressure, options } | Task::DewTemperature { pressure, options } => {
                put_options(press(words, pressure), options)
            }
            Task::TpFlash { temperature, pressure, options } => {
                put_options(press(heat(words, temperature), pressure), options)
            }
            Task::RachfordRice { k, max_iterations } | Task::RachfordRiceNegative { k, max_iterations } => {
                words.floats(K_VALUES, k).word(MAX_ITERATIONS, *max_iterations)
            }
        };
        words.seal_by(rule)
    }
}

fn put_options(words: Words, options: &Options) -> Words {
    words
        .word(MAX_ITERATIONS, options.max_iterations)
        .float(TOLERANCE, options.tolerance)
        .word(MAX_TEMPERATURE_ITERATIONS, options.max_temperature_iterations)
        .float(ENERGY_TOLERANCE, options.energy_tolerance)
        .float(TM_THRESHOLD, options.tm_threshold)
        .floats(LOW, &options.bracket.map(|t| t.0))
}

#[cfg(test)]
mod tests {
    use super::*;
    use crate::Block;

    #[test]
    fn the_stored_question() {
        let task =
            Task::TpFlash { temperature: Kelvin(351.44), pressure: Pascal(90_000.0), options: Options::default() };
        let stored = include_bytes!("../../../crates/still/stdin");
        assert_eq!(&Question::new(task, [0.5, 0.5]).encode(), stored);
    }

    #[test]
    fn a_feed_by_mass_is_said_in_word_27() {
        let task = Task::ExcessAt { temperature: Kelvin(300.0) };
        let (moles, mass) = (Question::new(task, [0.25, 0.75]), Question::new(task, Feed::mass([0.25, 0.75])));
        let (before, after) = (moles.encode(), mass.encode());
        let (before, after) = (Block::new(&before), Block::new(&after));
        assert_eq!((before.word(27), after.word(27)), (0, 1));
        assert!((0..63).filter(|at| *at != 27).all(|at| before.word(at) == after.word(at)));
        assert!(after.check_is_right());
    }

    #[test]
    fn the_check_goes_by_the_rule() {
        let question = Question::new(Task::ExcessAt { temperature: Kelvin(300.0) }, [0.25, 0.75]);
        let (plain, running) = (question.encode_by(Rule::Plain), question.encode_by(Rule::Running));
        assert_eq!(plain, question.encode());
        assert_eq!(plain[..BLOCK - 8], running[..BLOCK - 8]);
        assert!(Block::new(&running).check_is_right_by(Rule::Running) && !Block::new(&running).check_is_right());
    }

    #[test]
    fn k_values_and_their_limit() {
        let task = Task::RachfordRiceNegative { k: [2.0, 0.5].into(), max_iterations: 200 };
        let bytes = Question::new(task, [0.25, 0.75]).encode();
        let block = Block::new(&bytes);
        assert_eq!([block.word(0), block.word(1), block.word(12)], [8, 9, 200]);
        assert_eq!([block.float(4), block.float(5), block.float(19), block.float(20)], [0.25, 0.75, 2.0, 0.5]);
        assert_eq!([block.word(2), block.word(3), block.word(13), block.word(17)], [0; 4]);
        assert!(block.check_is_right());
    }

    #[test]
    fn each_input_stands_in_its_word() {
        let options = Options {
            max_iterations: 3,
            tolerance: 4.0,
            max_temperature_iterations: 5,
            energy_tolerance: 6.0,
            tm_threshold: 7.0,
            bracket: [Kelvin(8.0), Kelvin(9.0)],
        };
        let task = Task::DewTemperature { pressure: Pascal(2.0), options };
        let bytes = Question::new(task, [1.0]).encode();
        let block = Block::new(&bytes);
        assert_eq!([block.word(1), block.word(2), block.word(12), block.word(14)], [5, 0, 3, 5]);
        let floats = [3, 4, 13, 15, 16, 17, 18].map(|at| block.float(at));
        assert_eq!(floats, [2.0, 1.0, 4.0, 6.0, 7.0, 8.0, 9.0]);
    }
}
