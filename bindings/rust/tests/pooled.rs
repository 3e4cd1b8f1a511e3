//! Pooled drums: the typed call and the call on bytes against the plain one, and the numbers 31 and 32.

#[path = "../examples/ethanol_water/mod.rs"]
mod ethanol_water;

use ethanol_water::{ethanol_water, in_the_making};
use zektonk::{answer, pooled, pooled_bytes, rachford_rice};
use zektonk::{
    Answer, Book, Drum, Kelvin, Options, Pascal, Question, Reason, Task, Words, ANSWER_ROOM, DRUMS_MOST, DRUM_BYTES,
    POOL_MOST,
};

const STORED_BOOK: &[u8] = include_bytes!("../../../crates/still/data/book.bin");
const STORED_QUESTION: &[u8] = include_bytes!("../../../crates/still/stdin");

const SPLIT: [f64; 2] = [2.0, 0.5];

fn split() -> Task {
    Task::RachfordRice { k: SPLIT.into(), max_iterations: 200 }
}

fn tasks() -> [Task; 9] {
    let (temperature, pressure, options) = (Kelvin(351.44), Pascal(90_000.0), Options::default());
    [
        Task::ExcessAt { temperature },
        Task::BubblePressure { temperature },
        Task::DewPressure { temperature, options },
        Task::BubbleTemperature { pressure, options },
        Task::DewTemperature { pressure, options },
        Task::LiquidStability { temperature, options },
        Task::TpFlash { temperature, pressure, options },
        split(),
        Task::RachfordRiceNegative { k: [1.2, 0.1].into(), max_iterations: 200 },
    ]
}

/// Each count over the total, as floats.
fn shares(drums: &[Drum]) -> [f64; 2] {
    let counts = [0, 1].map(|i| drums.iter().map(|drum| drum.0[i]).sum::<u64>() as f64);
    counts.map(|count| count / (counts[0] + counts[1]))
}

#[test]
fn every_task_answers_as_the_plain_call_on_the_pool() {
    let weighed = in_the_making().molar_masses([0.046, 0.018]).build().unwrap();
    let largest = [Drum::new([POOL_MOST / 2, 1]), Drum::new([1, POOL_MOST / 2 - 2])];
    for book in [ethanol_water().unwrap(), weighed] {
        for drums in [&[Drum::new([868_273_378, 666_101_221])][..], &[Drum::new([3, 1]), Drum::new([4, 9])], &largest] {
            for task in tasks() {
                let plain = answer(&book, &Question::new(task, shares(drums)));
                assert_eq!(pooled(&book, &task, drums), plain, "{task:?}");
                assert!(plain.is_ok());
            }
        }
    }
}

/// The samples (w) to (z) of docs/FORMAT.md, which are proved.
#[test]
fn samples() {
    let book = ethanol_water().unwrap();
    let asked = |drums: &[Drum]| pooled(&book, &split(), drums);
    let d = rachford_rice(&book, [0.5, 0.5], SPLIT, 200).map(Answer::RachfordRice);
    assert_eq!(asked(&[Drum::new([3, 1, 7]), Drum::new([1, 3])]), d);
    assert_eq!(asked(&[Drum::default()]), Err(Reason::DrumsTotal.into()));
    assert_eq!(asked(&[Drum::new([u64::MAX]), Drum::new([2])]), Err(Reason::DrumsTotal.into()));
    assert_eq!(asked(&[]), Err(Reason::DrumsLength.into()));
}

#[test]
fn totals_and_how_many() {
    let book = ethanol_water().unwrap();
    let asked = |drums: &[Drum]| pooled(&book, &split(), drums).err();
    assert_eq!(asked(&[Drum::new([POOL_MOST - 1, 1])]), None);
    assert_eq!(asked(&[Drum::new([POOL_MOST, 1])]), Some(Reason::DrumsTotal.into()));
    assert_eq!(asked(&[Drum::new([POOL_MOST]), Drum::new([0, 1])]), Some(Reason::DrumsTotal.into()));
    // What stands behind the book's two solvents isn't read.
    assert_eq!(asked(&[Drum([1, 1, u64::MAX, u64::MAX, 0, 0, 0, u64::MAX])]), None);
    assert_eq!(asked(&[Drum([0, 0, 1, 1, 1, 1, 1, 1])]), Some(Reason::DrumsTotal.into()));
    assert_eq!(asked(&[Drum::new([1, 1]); DRUMS_MOST]), None);
    // 31 ahead of 32.
    assert_eq!(asked(&[Drum::default(); DRUMS_MOST + 1]), Some(Reason::DrumsLength.into()));
}

#[test]
fn the_order_of_numbers() {
    let book = ethanol_water().unwrap();
    let hot = Task::BubblePressure { temperature: Kelvin(-1.0) };
    assert_eq!(pooled(&Book::from(&[][..]), &hot, &[]), Err(Reason::BookLength.into()));
    assert_eq!(pooled(&book, &hot, &[]), Err(Reason::DrumsLength.into()));
    assert_eq!(pooled(&book, &hot, &[Drum::new([1])]), Err(Reason::Temperature.into()));
    let one = Task::RachfordRice { k: [2.0].into(), max_iterations: 200 };
    assert_eq!(pooled(&book, &one, &[]), Err(Reason::KLength { entries: 1, solvents: 2 }.into()));
}

#[test]
fn bytes_of_a_refused_call_stay() {
    let mut room: Vec<u8> = (0..ANSWER_ROOM + 9).map(|k| (7 * k + 3) as u8).collect();
    let before = room.clone();
    let drum = Drum::new([1, 1]).bytes();
    let by_mass = Words::new(8).word(1, 1).float(2, 300.0).word(27, 1).seal();
    let mut put = |question: &[u8], drums: &[u8], length: usize, reason: Reason| {
        assert_eq!(pooled_bytes(STORED_BOOK, question, drums, &mut room[..length]), Err(reason.into()));
        assert_eq!(room, before);
    };
    put(STORED_QUESTION, &drum, ANSWER_ROOM - 1, Reason::AnswerShort);
    put(&STORED_QUESTION[1..], &drum, ANSWER_ROOM, Reason::QuestionBlock);
    put(&Words::new(8).word(1, 10).seal(), &[], ANSWER_ROOM, Reason::Task);
    put(STORED_QUESTION, &drum[..DRUM_BYTES - 1], ANSWER_ROOM + 9, Reason::DrumsLength);
    put(STORED_QUESTION, &[1; 65 * DRUM_BYTES], ANSWER_ROOM, Reason::DrumsLength);
    put(&by_mass, &[0; DRUM_BYTES], ANSWER_ROOM, Reason::DrumsTotal);
    put(&by_mass, &drum, ANSWER_ROOM, Reason::FeedKind);
}
