//! Many feeds in one call: each against the call on its own, what ends the whole call, and every byte of the slice.

#[path = "../examples/ethanol_water/mod.rs"]
mod ethanol_water;

use ethanol_water::{ethanol_water, in_the_making};
use zektonk::{answer, answer_bytes, feeds, feeds_bytes};
use zektonk::{
    Answer, Block, Book, Feed, Kelvin, Options, Pascal, Question, Reason, Task, Words, ANSWER_ROOM, FEEDS_MOST,
    FEED_BYTES,
};

const STORED_BOOK: &[u8] = include_bytes!("../../../crates/still/data/book.bin");
const STORED_QUESTION: &[u8] = include_bytes!("../../../crates/still/stdin");

fn tasks() -> [Task; 5] {
    let (temperature, pressure, options) = (Kelvin(351.44), Pascal(90_000.0), Options::default());
    [
        Task::ExcessAt { temperature },
        Task::BubblePressure { temperature },
        Task::DewPressure { temperature, options },
        Task::LiquidStability { temperature, options },
        Task::TpFlash { temperature, pressure, options },
    ]
}

/// From all ethanol to all water, with four that are refused among them: 18, 16, 15 and 15.
fn week() -> Vec<[f64; 2]> {
    let mut rows: Vec<[f64; 2]> = (0..=10).map(|k| [f64::from(k) / 10.0, 1.0 - f64::from(k) / 10.0]).collect();
    rows.splice(3..3, [[0.5, 0.4], [-0.5, 1.5], [f64::NAN, 0.5], [0.5, f64::INFINITY]]);
    rows
}

#[test]
fn each_feed_is_answered_as_by_a_call_on_its_own() {
    let weighed = in_the_making().molar_masses([0.046, 0.018]);
    let books = [ethanol_water().unwrap(), weighed.build().unwrap(), weighed.version(2).build().unwrap()];
    let mut refused = 0;
    for book in &books {
        for task in tasks() {
            for kind in [Feed::from, Feed::mass] as [fn([f64; 2]) -> Feed; 2] {
                let rows: Vec<Feed> = week().into_iter().map(kind).collect();
                let found = feeds(book, &task, &rows).unwrap();
                let alone: Vec<_> = rows.iter().map(|feed| answer(book, &Question::new(task, *feed))).collect();
                assert_eq!(found, alone, "{task:?}");
                refused += found.iter().filter(|entry| entry.is_err()).count();
            }
        }
    }
    // By mass the first book, without molar masses, refuses all 15 (36); else 4 of 15.
    assert_eq!(refused, 5 * (15 + 5 * 4));
}

#[test]
fn how_many() {
    let book = ethanol_water().unwrap();
    let asked = |count: usize| feeds(&book, &tasks()[1], &vec![[0.5, 0.5].into(); count]);
    assert_eq!(asked(0), Err(Reason::FeedsLength.into()));
    assert_eq!(asked(1).unwrap().len(), 1);
    let most = asked(FEEDS_MOST).unwrap();
    assert!(most.len() == FEEDS_MOST && most.iter().all(|entry| *entry == most[0]) && most[0].is_ok());
    assert_eq!(asked(FEEDS_MOST + 1), Err(Reason::FeedsLength.into()));
}

#[test]
fn other_tasks_are_refused_feed_by_feed() {
    let book = ethanol_water().unwrap();
    let (pressure, options, k) = (Pascal(90_000.0), Options::default(), [2.0, 0.5].into());
    for task in [
        Task::BubbleTemperature { pressure, options },
        Task::DewTemperature { pressure, options },
        Task::RachfordRice { k, max_iterations: 200 },
        Task::RachfordRiceNegative { k, max_iterations: 200 },
    ] {
        let found = feeds(&book, &task, &[[0.5, 0.5].into(), [2.0, 2.0].into()]);
        assert_eq!(found, Ok(vec![Err(Reason::Task.into()), Err(Reason::Task.into())]));
    }
}

#[test]
fn what_the_crate_refuses() {
    let book = ethanol_water().unwrap();
    let asked = |rows: &[Feed]| feeds(&book, &tasks()[0], rows);
    assert_eq!(asked(&[[0.5, 0.5].into(), Feed::mass([0.5, 0.5])]), Err(Reason::FeedsMixed.into()));
    assert_eq!(asked(&[[0.5, 0.5].into(), [1.0].into()]), Err(Reason::FeedLength { entries: 1, solvents: 2 }.into()));
    assert_eq!(feeds(&Book::from(&[][..]), &tasks()[0], &[]), Err(Reason::BookLength.into()));
}

/// The first two of each row, and what stands behind them.
fn bytes(rows: &[[f64; 2]], behind: f64) -> Vec<u8> {
    let eight = |row: &[f64; 2]| [row[0], row[1], behind, behind, behind, behind, behind, behind];
    rows.iter().flat_map(eight).flat_map(f64::to_le_bytes).collect()
}

#[test]
fn every_byte_of_the_slice() {
    let rows = [[0.5, 0.5], [0.5, 0.4], [0.1, 0.9]];
    let before: Vec<u8> = (0..3 * ANSWER_ROOM + 9).map(|k| (7 * k + 3) as u8).collect();
    let mut room = before.clone();
    feeds_bytes(STORED_BOOK, STORED_QUESTION, &bytes(&rows, f64::NAN), &mut room).unwrap();
    for (k, row) in rows.iter().enumerate() {
        let (part, old) = (&room[ANSWER_ROOM * k..][..ANSWER_ROOM], &before[ANSWER_ROOM * k..][..ANSWER_ROOM]);
        let asked = question(row);
        let mut alone = old.to_vec();
        match answer_bytes(STORED_BOOK, &asked, &mut alone) {
            Ok(()) => assert_eq!(part, alone),
            Err(refusal) => {
                let block = Words::new(9).word(1, 7).word(2, refusal.number().unwrap()).seal();
                assert_eq!((part[..512] == block, &part[512..]), (true, &old[512..]));
                assert_eq!((k, refusal), (1, Reason::FractionSum.into()));
                assert_eq!(Answer::decode(part, 2), Ok(Err(refusal)));
            }
        }
    }
    assert_eq!(room[3 * ANSWER_ROOM..], before[3 * ANSWER_ROOM..]);
}

/// The stored one with other fractions.
fn question(row: &[f64; 2]) -> [u8; 512] {
    let stored = Block::of(STORED_QUESTION, 0).unwrap();
    let words = (1..63).fold(Words::new(8), |words, at| words.word(at, stored.word(at)));
    words.floats(4, row).seal()
}

#[test]
fn bytes_of_a_refused_call_stay() {
    let before: Vec<u8> = (0..65 * ANSWER_ROOM).map(|k| (7 * k + 3) as u8).collect();
    let mut room = before.clone();
    let all = bytes(&[[0.5, 0.5]; 65], 0.0);
    let mut put = |book: &[u8], question: &[u8], feeds: usize, length: usize, reason: Reason| {
        assert_eq!(feeds_bytes(book, question, &all[..feeds], &mut room[..length]), Err(reason.into()));
        assert!(room == before);
    };
    for length in [0, 1, FEED_BYTES - 1, FEED_BYTES + 1, 64 * FEED_BYTES - 1, 64 * FEED_BYTES + 1, 65 * FEED_BYTES] {
        // 33 ahead of 10 and 11.
        put(STORED_BOOK, STORED_QUESTION, length, 65 * ANSWER_ROOM, Reason::FeedsLength);
        put(STORED_BOOK, &[], length, 0, Reason::FeedsLength);
        // The book ahead of both.
        put(&STORED_BOOK[1..], &[], length, 0, Reason::BookLength);
    }
    for count in [1, 2, 64] {
        put(STORED_BOOK, STORED_QUESTION, count * FEED_BYTES, count * ANSWER_ROOM - 1, Reason::AnswerShort);
        // 10 ahead of 11.
        put(STORED_BOOK, &[], count * FEED_BYTES, (count - 1) * ANSWER_ROOM, Reason::AnswerShort);
    }
}

#[test]
fn a_question_that_fails_11_gives_every_feed_that_number() {
    let mut room = [0xaa; 2 * ANSWER_ROOM];
    feeds_bytes(STORED_BOOK, &STORED_QUESTION[1..], &bytes(&[[0.5, 0.5]; 2], 0.0), &mut room).unwrap();
    let block = Words::new(9).word(2, 11).seal();
    for part in room.chunks_exact(ANSWER_ROOM) {
        assert!(part[..512] == block && part[512..].iter().all(|byte| *byte == 0xaa));
    }
}
