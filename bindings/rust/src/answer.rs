//! Answers: the fields that each task fills, read from the answer block and its trials.

use std::fmt;

use crate::block::{Block, Rule};
use crate::format::answer::{
    BALANCE, BUBBLE, DEW, EVALUATIONS, INFERRED, ITERATIONS, LIQUID, LN_GAMMA, NOTES, OUTCOME, PRESSURE, REDUCED_GIBBS,
    REFUSAL, RESIDUAL, SLOPES, STABLE, TASK, TEMPERATURE, TRIALS, VALIDITY, VAPOR, VAPOR_FRACTION,
};
use crate::format::{any, kind, note, outcome, task, trial, validity};
use crate::{Kelvin, Pascal, Reason, Refusal, UpToEight};

/// What a task gives.
#[derive(Debug, Clone, PartialEq)]
#[non_exhaustive]
pub enum Answer {
    /// Task 1.
    Excess(Excess),
    /// Task 2.
    BubblePressure(Saturation),
    /// Task 3.
    DewPressure(Saturation),
    /// Task 4.
    BubbleTemperature(Saturation),
    /// Task 5.
    DewTemperature(Saturation),
    /// Task 6.
    LiquidStability(Stability),
    /// Task 7.
    TpFlash(Flash),
    /// Task 8.
    RachfordRice(Split),
    /// Task 9; its vapor fraction may be outside 0 to 1.
    RachfordRiceNegative(TwoPhase),
}

/// Activity coefficients and excess properties of a liquid.
#[derive(Debug, Clone, PartialEq)]
#[non_exhaustive]
pub struct Excess {
    /// As asked.
    pub temperature: Kelvin,
    /// ln γ of each solvent.
    pub ln_gamma: UpToEight<f64>,
    /// d ln γ/dT of each solvent, 1/K.
    pub slopes: UpToEight<f64>,
    /// Per mole of liquid.
    pub energies: Energies,
    /// The temperature against the regression intervals of the pairs that are present.
    pub validity: Validity,
    /// Whether one of those intervals was inferred.
    pub inferred: bool,
}

/// Excess properties.
#[derive(Debug, Clone, Copy, PartialEq)]
#[non_exhaustive]
pub struct Energies {
    /// g^E/(R T).
    pub reduced_gibbs: f64,
    /// g^E, J/mol.
    pub gibbs: f64,
    /// h^E, J/mol.
    pub enthalpy: f64,
    /// s^E, J/(mol K).
    pub entropy: f64,
    /// c_p^E, J/(mol K).
    pub heat_capacity: f64,
}

/// Where the temperature lies, by the pairs that are present.
#[derive(Debug, Clone, Copy, PartialEq, Eq)]
#[non_exhaustive]
pub enum Validity {
    /// Outside no interval, but a pair has none, or there is no pair.
    Unassessed,
    /// Within the interval of every pair.
    Within,
    /// Outside the interval of a pair.
    Extrapolated,
}

/// A bubble or dew point.
#[derive(Debug, Clone, PartialEq)]
#[non_exhaustive]
pub struct Saturation {
    /// Asked or found.
    pub temperature: Kelvin,
    /// Asked or found.
    pub pressure: Pascal,
    /// How many it took.
    pub iterations: u64,
    /// Largest difference of ln fugacities.
    pub residual: f64,
    /// Mole fractions.
    pub liquid: UpToEight<f64>,
    /// Mole fractions.
    pub vapor: UpToEight<f64>,
}

/// Tangent-plane trials of a liquid.
#[derive(Debug, Clone, PartialEq)]
#[non_exhaustive]
pub struct Stability {
    /// Whether no trial but a trivial one ended below the threshold.
    pub stable: bool,
    /// One from each present solvent; none where fewer than two are present.
    pub trials: Vec<Trial>,
}

/// A trial that starts near a pure solvent.
#[derive(Debug, Clone, Copy, PartialEq)]
#[non_exhaustive]
pub struct Trial {
    /// The solvent's index.
    pub component: usize,
    /// Tangent-plane distance where it ended.
    pub distance: f64,
    /// How many it took.
    pub iterations: u64,
    /// Whether it ended at the liquid under test.
    pub trivial: bool,
    /// Mole fractions where it ended.
    pub fractions: UpToEight<f64>,
}

/// The phases of a flash, each with its mole fractions.
#[derive(Debug, Clone, Copy, PartialEq)]
#[non_exhaustive]
pub enum Phases {
    /// All liquid.
    Liquid(UpToEight<f64>),
    /// All vapor.
    Vapor(UpToEight<f64>),
    /// Both.
    Both {
        /// Mole fractions.
        liquid: UpToEight<f64>,
        /// Mole fractions.
        vapor: UpToEight<f64>,
    },
}

/// Notes of a flash.
#[derive(Debug, Clone, Copy, PartialEq, Eq)]
pub struct Notes(u64);

impl Notes {
    /// The bits as they stand in the answer.
    #[must_use]
    pub fn bits(self) -> u64 {
        self.0
    }

    /// A7-GAMMA-PHI: activity coefficients with an ideal-gas vapor.
    #[must_use]
    pub fn gamma_phi(self) -> bool {
        self.0 & note::GAMMA_PHI != 0
    }

    /// A7-SPLIT-AT-SATURATION-BOUNDARY: the split ended within 1e-10 of a single phase, and is given as that phase.
    #[must_use]
    pub fn split_at_saturation_boundary(self) -> bool {
        self.0 & note::SPLIT_AT_SATURATION_BOUNDARY != 0
    }

    /// A7-LIQUID-TPD-FINITE-TRIALS: the liquid of two phases passed these trials; others may find it unstable.
    #[must_use]
    pub fn liquid_tpd_finite_trials(self) -> bool {
        self.0 & note::LIQUID_TPD_FINITE_TRIALS != 0
    }
}

/// The phases of a feed at a temperature and a pressure.
#[derive(Debug, Clone, PartialEq)]
#[non_exhaustive]
pub struct Flash {
    /// As asked.
    pub temperature: Kelvin,
    /// As asked.
    pub pressure: Pascal,
    /// Bubble pressure of the feed.
    pub bubble: Pascal,
    /// Dew pressure of the feed.
    pub dew: Pascal,
    /// How many the split took; 0 for a single phase.
    pub iterations: u64,
    /// Largest difference of ln fugacities.
    pub residual: f64,
    /// Largest difference between feed and phases, in a mole fraction.
    pub balance: f64,
    /// Moles of vapor per mole of feed: 0 and 1 for a single phase.
    pub vapor_fraction: f64,
    /// What to know of it.
    pub notes: Notes,
    /// What there is.
    pub phases: Phases,
    /// Trials of the liquid, where there is one.
    pub tested: Option<Stability>,
    /// Activity evaluations, all ln γ at one composition, that it began: what it takes off the allowance of a
    /// [`queue`](crate::queue). Never more than [`most_evaluations`](crate::most_evaluations).
    pub evaluations: u64,
}

/// The split of a feed for given K values.
#[derive(Debug, Clone, PartialEq)]
#[non_exhaustive]
pub enum Split {
    /// The feed stays liquid.
    LiquidOnly,
    /// The feed is all vapor.
    VaporOnly,
    /// Both phases.
    TwoPhase(TwoPhase),
}

/// Two phases for given K values.
#[derive(Debug, Clone, PartialEq)]
#[non_exhaustive]
pub struct TwoPhase {
    /// Moles of vapor per mole of feed.
    pub vapor_fraction: f64,
    /// Of the Rachford-Rice equation.
    pub residual: f64,
    /// How many it took.
    pub iterations: u64,
    /// Mole fractions.
    pub liquid: UpToEight<f64>,
    /// Mole fractions.
    pub vapor: UpToEight<f64>,
}

/// Bytes that the core doesn't write.
#[derive(Debug, Clone, Copy, PartialEq, Eq)]
#[non_exhaustive]
pub enum Malformed {
    /// Fewer bytes than the blocks that there should be.
    Length,
    /// The check of a block is wrong; which.
    Check(usize),
    /// A word holds what the core doesn't write there; block and word.
    Word(usize, usize),
}

impl fmt::Display for Malformed {
    fn fmt(&self, f: &mut fmt::Formatter<'_>) -> fmt::Result {
        match self {
            Self::Length => write!(f, "too few bytes for an answer"),
            Self::Check(block) => write!(f, "the check of block {block} is wrong"),
            Self::Word(block, word) => write!(f, "word {word} of block {block} is none of an answer"),
        }
    }
}

impl std::error::Error for Malformed {}

impl Answer {
    /// Reads an answer slice, or what the program `still` wrote, for a book of version 1 or 2 and `solvents` solvents.
    /// Bytes behind the blocks are not read.
    ///
    /// # Errors
    ///
    /// [`Malformed`] where these are not bytes that the core writes. The inner error is the refusal that they hold.
    ///
    /// ```
    /// use zektonk::{Answer, Phases};
    ///
    /// let written = include_bytes!("../../../crates/still/stdout");
    /// let Ok(Ok(Answer::TpFlash(flash))) = Answer::decode(written, 2) else { panic!("a flash is stored") };
    /// assert!(matches!(flash.phases, Phases::Both { .. }));
    /// assert_eq!(flash.tested.map(|tested| tested.trials.len()), Some(2));
    /// ```
    pub fn decode(bytes: &[u8], solvents: usize) -> Result<Result<Self, Refusal>, Malformed> {
        Self::decode_by(Rule::Plain, bytes, solvents)
    }

    /// The same, checked by the [rule](crate::Book::rule) of the book.
    ///
    /// # Errors
    ///
    /// As [`decode`](Self::decode).
    pub fn decode_by(rule: Rule, bytes: &[u8], solvents: usize) -> Result<Result<Self, Refusal>, Malformed> {
        let reader = Reader { rule, bytes, solvents: solvents.min(8) };
        let head = reader.block(0, kind::ANSWER)?;
        if head.word(REFUSAL) == 0 {
            return reader.answer(head).map(Ok);
        }
        Reason::from_number(head.word(REFUSAL)).map(|reason| Err(reason.into())).ok_or(Malformed::Word(0, REFUSAL))
    }

    /// The task that was asked, 1 to 9.
    #[must_use]
    pub fn task(&self) -> u64 {
        match self {
            Self::Excess(_) => task::EXCESS_AT,
            Self::BubblePressure(_) => task::BUBBLE_PRESSURE,
            Self::DewPressure(_) => task::DEW_PRESSURE,
            Self::BubbleTemperature(_) => task::BUBBLE_TEMPERATURE,
            Self::DewTemperature(_) => task::DEW_TEMPERATURE,
            Self::LiquidStability(_) => task::LIQUID_STABILITY,
            Self::TpFlash(_) => task::TP_FLASH,
            Self::RachfordRice(_) => task::RACHFORD_RICE,
            Self::RachfordRiceNegative(_) => task::RACHFORD_RICE_NEGATIVE,
        }
    }
}

struct Reader<'a> {
    rule: Rule,
    bytes: &'a [u8],
    solvents: usize,
}

impl Reader<'_> {
    fn block(&self, at: usize, kind: u64) -> Result<Block<'_>, Malformed> {
        let block = Block::of(self.bytes, at).ok_or(Malformed::Length)?;
        if !block.check_is_right_by(self.rule) {
            return Err(Malformed::Check(at));
        }
        if block.word(any::KIND) != kind {
            return Err(Malformed::Word(at, any::KIND));
        }
        Ok(block)
    }

    /// An entry for each solvent.
    fn entries(&self, block: Block<'_>, from: usize) -> UpToEight<f64> {
        let all: [f64; 8] = std::array::from_fn(|k| block.float(from + k));
        UpToEight::try_from(&all[..self.solvents]).expect("at most eight")
    }

    fn answer(&self, head: Block<'_>) -> Result<Answer, Malformed> {
        Ok(match head.word(TASK) {
            task::EXCESS_AT => Answer::Excess(self.excess(head)?),
            task::BUBBLE_PRESSURE => Answer::BubblePressure(self.saturation(head)),
            task::DEW_PRESSURE => Answer::DewPressure(self.saturation(head)),
            task::BUBBLE_TEMPERATURE => Answer::BubbleTemperature(self.saturation(head)),
            task::DEW_TEMPERATURE => Answer::DewTemperature(self.saturation(head)),
            task::LIQUID_STABILITY => Answer::LiquidStability(self.stability(head)?),
            task::TP_FLASH => Answer::TpFlash(self.flash(head)?),
            task::RACHFORD_RICE => Answer::RachfordRice(self.split(head)?),
            task::RACHFORD_RICE_NEGATIVE if head.word(OUTCOME) == outcome::LIQUID_AND_VAPOR => {
                Answer::RachfordRiceNegative(self.two_phase(head))
            }
            task::RACHFORD_RICE_NEGATIVE => return Err(Malformed::Word(0, OUTCOME)),
            _ => return Err(Malformed::Word(0, TASK)),
        })
    }

    fn excess(&self, head: Block<'_>) -> Result<Excess, Malformed> {
        let [reduced_gibbs, gibbs, enthalpy, entropy, heat_capacity] =
            std::array::from_fn(|k| head.float(REDUCED_GIBBS + k));
        Ok(Excess {
            temperature: Kelvin(head.float(TEMPERATURE)),
            ln_gamma: self.entries(head, LN_GAMMA),
            slopes: self.entries(head, SLOPES),
            energies: Energies { reduced_gibbs, gibbs, enthalpy, entropy, heat_capacity },
            validity: match head.word(VALIDITY) {
                validity::UNASSESSED => Validity::Unassessed,
                validity::WITHIN => Validity::Within,
                validity::EXTRAPOLATED => Validity::Extrapolated,
                _ => return Err(Malformed::Word(0, VALIDITY)),
            },
            inferred: flag(head, 0, INFERRED)?,
        })
    }

    fn saturation(&self, head: Block<'_>) -> Saturation {
        Saturation {
            temperature: Kelvin(head.float(TEMPERATURE)),
            pressure: Pascal(head.float(PRESSURE)),
            iterations: head.word(ITERATIONS),
            residual: head.float(RESIDUAL),
            liquid: self.entries(head, LIQUID),
            vapor: self.entries(head, VAPOR),
        }
    }

    fn stability(&self, head: Block<'_>) -> Result<Stability, Malformed> {
        let count = usize::try_from(head.word(TRIALS)).ok().filter(|count| *count <= 8);
        let trials =
            (1..=count.ok_or(Malformed::Word(0, TRIALS))?).map(|at| self.trial(at)).collect::<Result<_, _>>()?;
        Ok(Stability { stable: flag(head, 0, STABLE)?, trials })
    }

    fn trial(&self, at: usize) -> Result<Trial, Malformed> {
        let block = self.block(at, kind::TRIAL)?;
        let component = usize::try_from(block.word(trial::COMPONENT)).ok().filter(|index| *index < self.solvents);
        Ok(Trial {
            component: component.ok_or(Malformed::Word(at, trial::COMPONENT))?,
            distance: block.float(trial::DISTANCE),
            iterations: block.word(trial::ITERATIONS),
            trivial: flag(block, at, trial::TRIVIAL)?,
            fractions: self.entries(block, trial::FRACTIONS),
        })
    }

    fn flash(&self, head: Block<'_>) -> Result<Flash, Malformed> {
        let (liquid, vapor) = (self.entries(head, LIQUID), self.entries(head, VAPOR));
        let phases = match head.word(OUTCOME) {
            outcome::LIQUID => Phases::Liquid(liquid),
            outcome::VAPOR => Phases::Vapor(vapor),
            outcome::LIQUID_AND_VAPOR => Phases::Both { liquid, vapor },
            _ => return Err(Malformed::Word(0, OUTCOME)),
        };
        let tested = if matches!(phases, Phases::Vapor(_)) { None } else { Some(self.stability(head)?) };
        Ok(Flash {
            temperature: Kelvin(head.float(TEMPERATURE)),
            pressure: Pascal(head.float(PRESSURE)),
            bubble: Pascal(head.float(BUBBLE)),
            dew: Pascal(head.float(DEW)),
            iterations: head.word(ITERATIONS),
            residual: head.float(RESIDUAL),
            balance: head.float(BALANCE),
            vapor_fraction: head.float(VAPOR_FRACTION),
            notes: Notes(head.word(NOTES)),
            phases,
            tested,
            evaluations: head.word(EVALUATIONS),
        })
    }

    fn split(&self, head: Block<'_>) -> Result<Split, Malformed> {
        match head.word(OUTCOME) {
            outcome::LIQUID => Ok(Split::LiquidOnly),
            outcome::VAPOR => Ok(Split::VaporOnly),
            outcome::LIQUID_AND_VAPOR => Ok(Split::TwoPhase(self.two_phase(head))),
            _ => Err(Malformed::Word(0, OUTCOME)),
        }
    }

    fn two_phase(&self, head: Block<'_>) -> TwoPhase {
        TwoPhase {
            vapor_fraction: head.float(VAPOR_FRACTION),
            residual: head.float(RESIDUAL),
            iterations: head.word(ITERATIONS),
            liquid: self.entries(head, LIQUID),
            vapor: self.entries(head, VAPOR),
        }
    }
}

fn flag(block: Block<'_>, at: usize, word: usize) -> Result<bool, Malformed> {
    match block.word(word) {
        0 => Ok(false),
        1 => Ok(true),
        _ => Err(Malformed::Word(at, word)),
    }
}

#[cfg(test)]
mod tests {
    use super::*;
    use crate::Words;

    fn head(task: u64) -> Words {
        Words::new(9).word(TASK, task)
    }

    #[test]
    fn refusal_block_of_the_program() {
        assert_eq!(Answer::decode(&head(7).word(REFUSAL, 27).seal(), 2), Ok(Err(Reason::NotConverged.into())));
        assert_eq!(Answer::decode(&head(0).word(REFUSAL, 40).seal(), 2), Err(Malformed::Word(0, REFUSAL)));
    }

    #[test]
    fn words_of_task_1() {
        let energies: Vec<f64> = (1..=5).map(f64::from).collect();
        let block =
            head(1).float(TEMPERATURE, 300.0).floats(LIQUID, &[0.5, 0.25, 9.0]).floats(VAPOR, &[-0.5, -0.25, 9.0]);
        let block = block.floats(REDUCED_GIBBS, &energies).word(VALIDITY, 2).word(INFERRED, 1);
        let Ok(Ok(Answer::Excess(found))) = Answer::decode(&block.seal(), 2) else { panic!("task 1") };
        assert_eq!(found.temperature, Kelvin(300.0));
        assert_eq!((found.ln_gamma, found.slopes), ([0.5, 0.25].into(), [-0.5, -0.25].into()));
        let e = found.energies;
        assert_eq!([e.reduced_gibbs, e.gibbs, e.enthalpy, e.entropy, e.heat_capacity], [1.0, 2.0, 3.0, 4.0, 5.0]);
        assert_eq!((found.validity, found.inferred), (Validity::Extrapolated, true));
    }

    #[test]
    fn words_of_task_7() {
        let floats: Vec<f64> = (1..=4).map(f64::from).collect();
        let block = head(7)
            .word(OUTCOME, 1)
            .floats(TEMPERATURE, &floats)
            .word(ITERATIONS, 5)
            .floats(RESIDUAL, &[6.0, 7.0, 0.0]);
        let block = block.word(TRIALS, 1).word(NOTES, 3).floats(LIQUID, &[0.75, 0.25]).word(STABLE, 1);
        let block = block.word(EVALUATIONS, 8).seal();
        let trial = Words::new(10).word(1, 1).float(2, 0.5).word(3, 9).word(4, 1).floats(5, &[0.1, 0.9]).seal();
        let Ok(Ok(Answer::TpFlash(found))) = Answer::decode(&[block, trial].concat(), 2) else { panic!("task 7") };
        assert_eq!((found.temperature, found.pressure), (Kelvin(1.0), Pascal(2.0)));
        assert_eq!((found.bubble, found.dew), (Pascal(3.0), Pascal(4.0)));
        assert_eq!((found.iterations, found.residual, found.balance, found.vapor_fraction), (5, 6.0, 7.0, 0.0));
        assert_eq!((found.phases, found.evaluations), (Phases::Liquid([0.75, 0.25].into()), 8));
        let notes = found.notes;
        assert!(notes.gamma_phi() && notes.split_at_saturation_boundary() && !notes.liquid_tpd_finite_trials());
        assert_eq!(notes.bits(), 3);
        let tested = found.tested.expect("a liquid is tested");
        let component =
            Trial { component: 1, distance: 0.5, iterations: 9, trivial: true, fractions: [0.1, 0.9].into() };
        assert_eq!((tested.stable, tested.trials), (true, vec![component]));
        assert_eq!(Answer::decode(&block, 2), Err(Malformed::Length));
    }

    #[test]
    fn what_the_core_does_not_write() {
        let word = |words: Words, at| assert_eq!(Answer::decode(&words.seal(), 2), Err(Malformed::Word(0, at)));
        word(Words::new(10).word(TASK, 1), 0);
        word(head(0), TASK);
        word(head(10), TASK);
        word(head(7), OUTCOME);
        // A flash that is put off is no answer.
        word(head(7).word(OUTCOME, 4), OUTCOME);
        word(head(8).word(OUTCOME, 4), OUTCOME);
        word(head(9).word(OUTCOME, 1), OUTCOME);
        word(head(1).word(VALIDITY, 3), VALIDITY);
        word(head(1).word(INFERRED, 2), INFERRED);
        word(head(6).word(TRIALS, 9), TRIALS);
        word(head(6).word(STABLE, 2), STABLE);
        let mut damaged = head(2).seal();
        damaged[100] ^= 1;
        assert_eq!(Answer::decode(&damaged, 2), Err(Malformed::Check(0)));
        assert_eq!(Answer::decode(&damaged[1..], 2), Err(Malformed::Length));
        let trial = |words: Words| Answer::decode(&[head(6).word(TRIALS, 1).seal(), words.seal()].concat(), 2);
        assert_eq!(trial(Words::new(9)), Err(Malformed::Word(1, 0)));
        assert_eq!(trial(Words::new(10).word(1, 2)), Err(Malformed::Word(1, 1)));
        assert_eq!(trial(Words::new(10).word(4, 2)), Err(Malformed::Word(1, 4)));
    }
}
