//! A call for each task, with that task's own answer.

use crate::answer::{Answer, Excess, Flash, Saturation, Split, Stability, TwoPhase};
use crate::question::{Kelvin, Options, Pascal, Question, Task};
use crate::{answer, Book, Feed, Refusal, UpToEight};

/// A function that asks a task and takes its answer out.
macro_rules! calls {
    ($(
        $(#[$about:meta])*
        $name:ident($($input:ident: $type:ty),*) -> $answer:ident($found:ty), $task:expr;
    )*) => {$(
        $(#[$about])*
        ///
        /// # Errors
        ///
        /// The core's refusal, or that feed or K values haven't an entry for each solvent of the book.
        pub fn $name(book: &Book<'_>, feed: impl Into<Feed>, $($input: $type),*) -> Result<$found, Refusal> {
            match answer(book, &Question::new($task, feed))? {
                Answer::$answer(found) => Ok(found),
                other => unreachable!("task {} was not asked", other.task()),
            }
        }
    )*};
}

calls! {
    /// Activity coefficients and excess properties of a liquid.
    ///
    /// ```
    /// use zektonk::{excess_at, Book, Kelvin};
    ///
    /// let book = Book::from(&include_bytes!("../../../crates/still/data/book.bin")[..]);
    /// let excess = excess_at(&book, [0.5, 0.5], Kelvin(351.44))?;
    /// assert!((excess.energies.gibbs - 905.861).abs() < 1e-3);
    /// # Ok::<(), zektonk::Refusal>(())
    /// ```
    excess_at(temperature: Kelvin) -> Excess(Excess), Task::ExcessAt { temperature };

    /// The pressure where a liquid begins to boil.
    bubble_pressure(temperature: Kelvin) -> BubblePressure(Saturation), Task::BubblePressure { temperature };

    /// The pressure where a vapor begins to condense.
    dew_pressure(temperature: Kelvin, options: Options) -> DewPressure(Saturation),
        Task::DewPressure { temperature, options };

    /// The temperature where a liquid begins to boil.
    bubble_temperature(pressure: Pascal, options: Options) -> BubbleTemperature(Saturation),
        Task::BubbleTemperature { pressure, options };

    /// The temperature where a vapor begins to condense.
    dew_temperature(pressure: Pascal, options: Options) -> DewTemperature(Saturation),
        Task::DewTemperature { pressure, options };

    /// Tangent-plane trials of a liquid.
    liquid_stability(temperature: Kelvin, options: Options) -> LiquidStability(Stability),
        Task::LiquidStability { temperature, options };

    /// The phases of a feed at a temperature and a pressure.
    ///
    /// ```
    /// use zektonk::{tp_flash, Book, Kelvin, Options, Pascal, Phases};
    ///
    /// let book = Book::from(&include_bytes!("../../../crates/still/data/book.bin")[..]);
    /// let flash = tp_flash(&book, [0.5, 0.5], Kelvin(351.44), Pascal(90_000.0), Options::default())?;
    /// assert!(matches!(flash.phases, Phases::Both { .. }));
    /// # Ok::<(), zektonk::Refusal>(())
    /// ```
    tp_flash(temperature: Kelvin, pressure: Pascal, options: Options) -> TpFlash(Flash),
        Task::TpFlash { temperature, pressure, options };

    /// The split of a feed for given K values.
    ///
    /// ```
    /// use zektonk::{rachford_rice, Book, Split};
    ///
    /// let book = Book::from(&include_bytes!("../../../crates/still/data/book.bin")[..]);
    /// let Split::TwoPhase(split) = rachford_rice(&book, [0.5, 0.5], [2.0, 0.5], 200)? else { panic!() };
    /// assert_eq!(split.vapor_fraction, 0.5);
    /// # Ok::<(), zektonk::Refusal>(())
    /// ```
    rachford_rice(k: impl Into<UpToEight<f64>>, max_iterations: u64) -> RachfordRice(Split),
        Task::RachfordRice { k: k.into(), max_iterations };

    /// The same with the vapor fraction outside 0 to 1 allowed.
    rachford_rice_negative(k: impl Into<UpToEight<f64>>, max_iterations: u64) -> RachfordRiceNegative(TwoPhase),
        Task::RachfordRiceNegative { k: k.into(), max_iterations };
}
