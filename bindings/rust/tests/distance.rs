//! How far to the next phase change, beside plain flashes step by step.

#[path = "../examples/ethanol_water/mod.rs"]
mod ethanol_water;

use ethanol_water::{ethanol_water, in_the_making};
use zektonk::{answer, distance, distance_bytes, tp_flash};
use zektonk::{
    Book, Distance, Feed, Kelvin, Options, Pascal, Phases, Question, Reason, Refusal, Task, STEPS_MOST, STEP_PASCALS,
};

const STORED_BOOK: &[u8] = include_bytes!("../../../crates/still/data/book.bin");
const STORED_QUESTION: &[u8] = include_bytes!("../../../crates/still/stdin");

fn task(kelvin: f64, pascals: f64) -> Task {
    Task::TpFlash { temperature: Kelvin(kelvin), pressure: Pascal(pascals), options: Options::default() }
}

/// The outcome of a plain flash.
fn outcome(book: &Book<'_>, feed: Feed, kelvin: f64, pascals: f64) -> Result<u64, Refusal> {
    let flash = tp_flash(book, feed, Kelvin(kelvin), Pascal(pascals), Options::default())?;
    Ok(match flash.phases {
        Phases::Liquid(_) => 1,
        Phases::Vapor(_) => 2,
        Phases::Both { .. } => 3,
        _ => unreachable!("there are three"),
    })
}

/// By plain flashes, in order.
fn due(book: &Book<'_>, feed: Feed, kelvin: f64, pascals: f64) -> Result<Distance, Refusal> {
    let here = outcome(book, feed, kelvin, pascals)?;
    let mut refused = 0;
    for size in 1..=STEPS_MOST {
        for steps in [size, -size] {
            match outcome(book, feed, kelvin, pascals + 100.0 * steps as f64) {
                Err(_) => refused += 1,
                Ok(there) if there != here => return Ok(Distance::Step { steps, outcome: there, refused }),
                Ok(_) => {}
            }
        }
    }
    Ok(Distance::None { refused })
}

#[test]
fn as_plain_flashes() {
    let book = in_the_making().molar_masses([0.046, 0.018]).build().unwrap();
    let (mut steps, mut none, mut refusing) = (0, 0, 0);
    for feed in [Feed::from([0.5, 0.5]), Feed::from([0.89, 0.11]), Feed::from([0.0, 1.0]), Feed::mass([0.3, 0.7])] {
        for kelvin in [300.0, 351.44, 372.0] {
            for pascals in [150.0, 1234.5, 5_000.0, 79_999.99, 90_000.0, 101_325.0, 250_000.0, 499_950.0] {
                let found = distance(&book, &Question::new(task(kelvin, pascals), feed));
                assert_eq!(found, due(&book, feed, kelvin, pascals), "{feed:?} at {kelvin} K, {pascals} Pa");
                match found.unwrap() {
                    Distance::Step { refused, .. } => {
                        (steps, refusing) = (steps + 1, refusing + u64::from(refused > 0))
                    }
                    _ => none += 1,
                }
            }
        }
    }
    assert!(steps > 20 && none > 10 && refusing > 5, "{steps} {none} {refusing}");
}

#[test]
fn refusals() {
    let book = ethanol_water().unwrap();
    let of = |task, feed: [f64; 2]| distance(&book, &Question::new(task, feed));
    let (temperature, pressure, options) = (Kelvin(351.44), Pascal(90_000.0), Options::default());
    for other in [
        Task::ExcessAt { temperature },
        Task::BubbleTemperature { pressure, options },
        Task::RachfordRice { k: [2.0, 0.5].into(), max_iterations: 9 },
    ] {
        // 12 stands ahead of what the question says.
        assert_eq!(of(other, [0.5, 0.4]), Err(Reason::Task.into()), "{other:?}");
    }
    assert_eq!(of(task(351.44, 90e3), [0.5, 0.4]), Err(Reason::FractionSum.into()));
    assert_eq!(of(task(260.0, 90e3), [0.5, 0.5]), Err(Reason::TemperatureOutside.into()));
    assert_eq!(of(task(351.44, -1.0), [0.5, 0.5]), Err(Reason::Pressure.into()));
    assert_eq!(of(task(351.44, 99.0), [0.5, 0.5]), Err(Reason::PressureOutside.into()));
    let one = Question::new(task(351.44, 90e3), [1.0]);
    assert_eq!(distance(&book, &one), Err(Reason::FeedLength { entries: 1, solvents: 2 }.into()));
    assert_eq!(distance(&Book::from(&[][..]), &one), Err(Reason::BookLength.into()));
    assert_eq!(answer(&book, &Question::new(task(351.44, 99.0), [0.5, 0.5])), Err(Reason::PressureOutside.into()));
}

#[test]
fn bytes() {
    assert_eq!(distance_bytes(STORED_BOOK, STORED_QUESTION), Ok(Distance::Step { steps: 64, outcome: 1, refused: 0 }));
    assert_eq!(distance_bytes(STORED_BOOK, &STORED_QUESTION[1..]), Err(Reason::QuestionBlock.into()));
    assert_eq!(distance_bytes(&STORED_BOOK[1..], STORED_QUESTION), Err(Reason::BookLength.into()));
    assert_eq!(distance_bytes(&[], &[]), Err(Reason::BookLength.into()));
    assert_eq!((STEPS_MOST, STEP_PASCALS), (1000, 100));
}
