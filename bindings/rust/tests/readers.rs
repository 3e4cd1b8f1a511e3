//! What the floor is shown of an answer and what the lab is: against the answer's own words, of every task.

#[path = "../examples/ethanol_water/mod.rs"]
mod ethanol_water;

use ethanol_water::ethanol_water;
use zektonk::{answer_bytes, feeds_bytes, floor, floor_words, lab, Floor};
use zektonk::{
    Block, Kelvin, Options, Pascal, Question, Reason, Task, Words, ANSWER_ROOM, BLOCK, FEED_BYTES, FLOOR_WORDS,
};

const STORED_BOOK: &[u8] = include_bytes!("../../../crates/still/data/book.bin");
const STORED_QUESTION: &[u8] = include_bytes!("../../../crates/still/stdin");

/// Words 1 to 5, 11 and 14 to 29.
fn due(block: Block<'_>) -> [u64; FLOOR_WORDS] {
    let places: Vec<usize> = (1..=5).chain([11]).chain(14..=29).collect();
    std::array::from_fn(|k| if block.word(1) == 1 && k > 4 { 0 } else { block.word(places[k]) })
}

fn tasks() -> [Task; 9] {
    let (temperature, pressure, options) = (Kelvin(351.44), Pascal(90_000.0), Options::default());
    [
        Task::ExcessAt { temperature },
        Task::BubblePressure { temperature },
        Task::DewPressure { temperature, options },
        Task::BubbleTemperature { pressure, options },
        Task::DewTemperature { pressure, options },
        Task::LiquidStability { temperature, options },
        Task::TpFlash { temperature, pressure, options },
        Task::RachfordRice { k: [2.0, 0.5].into(), max_iterations: 200 },
        Task::RachfordRiceNegative { k: [1.2, 0.1].into(), max_iterations: 200 },
    ]
}

#[test]
fn every_task_is_read() {
    let book = ethanol_water().unwrap();
    for task in tasks() {
        let question = Question::new(task, [0.5, 0.5]).encode_by(book.rule());
        let mut room = [0xaa; ANSWER_ROOM];
        answer_bytes(book.bytes(), &question, &mut room).unwrap();
        let block = Block::of(&room, 0).unwrap();
        let shown = floor(&room).unwrap();
        assert_eq!(shown.words(), due(block), "{task:?}");
        assert_eq!(shown.task, task.number());
        let written = BLOCK * (1 + block.word(12) as usize);
        assert_eq!(lab(&room), Ok(&room[..written]));
        assert!(room[written..].iter().all(|byte| *byte == 0xaa));
        // The caller's own bytes.
        assert!(std::ptr::eq(lab(&room).unwrap().as_ptr(), room.as_ptr()));
        if task.number() == 1 {
            assert!(block.word(14) != 0 && shown.words()[5..] == [0; 17]);
        }
    }
}

#[test]
fn refusals_of_feeds_are_read() {
    let mut feeds = [0; 2 * FEED_BYTES];
    feeds[..8].copy_from_slice(&0.5_f64.to_le_bytes());
    feeds[8..16].copy_from_slice(&0.5_f64.to_le_bytes());
    let mut room = [0xaa; 2 * ANSWER_ROOM];
    feeds_bytes(STORED_BOOK, STORED_QUESTION, &feeds, &mut room).unwrap();
    let shown = [0, ANSWER_ROOM].map(|from| floor(&room[from..]).unwrap());
    assert_eq!(shown.map(|floor| (floor.task, floor.refusal)), [(7, 0), (7, 18)]);
    assert_eq!(lab(&room[ANSWER_ROOM..]).map(<[u8]>::len), Ok(BLOCK));
    // What a queue puts off: outcome 4.
    let put_off = Words::new(9).word(1, 7).word(3, 4).seal();
    assert_eq!(floor(&put_off).map(|floor| floor.outcome), Ok(4));
}

/// Blocks whose words all differ.
fn blocks(kind: u64, count: u64, trials: usize) -> Vec<u8> {
    let block = |k: u64, kind: u64| (1..63).fold(Words::new(kind), |words, at| words.word(at, 100 * k + at as u64));
    let mut all = block(1, kind).word(1, 7).word(12, count).seal().to_vec();
    (0..trials).for_each(|k| all.extend(block(2 + k as u64, 10).seal()));
    all
}

#[test]
fn number_1() {
    for trials in 0..=8 {
        let right = blocks(9, trials as u64, trials);
        assert_eq!(floor(&right).map(|floor| floor.words()), Ok(due(Block::of(&right, 0).unwrap())));
        assert_eq!(lab(&[&right[..], &[1, 2, 3]].concat()).map(<[u8]>::len), Ok(BLOCK * (1 + trials)));
        for short in [&right[..right.len() - 1], &right[..BLOCK * trials], &right[1..]] {
            assert_eq!((floor(short), lab(short)), (Err(Reason::BookLength.into()), Err(Reason::BookLength.into())));
        }
        for block in 1..=trials {
            let mut other = right.clone();
            other[BLOCK * block] = 9;
            assert_eq!(floor(&other), Err(Reason::BookLength.into()));
        }
        // A check isn't tested.
        let mut unsealed = right.clone();
        *unsealed.last_mut().unwrap() ^= 1;
        assert_eq!(lab(&unsealed), Ok(&unsealed[..]));
    }
    for (kind, count) in [(8, 0), (10, 0), (1 << 32 | 9, 0), (9, 9), (9, 1 << 32), (9, u64::MAX)] {
        assert_eq!(floor(&blocks(kind, count, 10)), Err(Reason::BookLength.into()), "{kind} {count}");
    }
    assert_eq!((floor(&[]), lab(&[])), (Err(Reason::BookLength.into()), Err(Reason::BookLength.into())));
}

#[test]
fn words_that_stay() {
    let answer = blocks(9, 2, 2);
    let mut words: Vec<u64> = (0..30).collect();
    for room in 0..FLOOR_WORDS {
        assert_eq!(floor_words(&answer, &mut words[..room]), Err(Reason::AnswerShort.into()));
        assert_eq!(floor_words(&answer[1..], &mut words[..room]), Err(Reason::BookLength.into()));
    }
    assert!(words.iter().copied().eq(0..30));
    floor_words(&answer, &mut words).unwrap();
    assert_eq!(words[..FLOOR_WORDS], due(Block::of(&answer, 0).unwrap()));
    assert!(words[FLOOR_WORDS..].iter().copied().eq(22..30));
}

/// Equal just where words 1 to 5 and, outside task 1, 11 and 14 to 29 are.
#[test]
fn what_looks_equal() {
    for task in [1, 7] {
        let words = (2..63).fold(Words::new(9).word(1, task), |words, at| words.word(at, at as u64)).word(12, 0);
        let one = floor(&words.clone().seal()).unwrap();
        for at in 1..63 {
            if at == 12 {
                continue;
            }
            let other = floor(&words.clone().word(at, 1 << 63).seal()).unwrap();
            let seen = (1..=5).contains(&at) || (task != 1 && (at == 11 || (14..=29).contains(&at)));
            assert_eq!(one != other, seen, "task {task}, word {at}");
        }
    }
    let zeros = [0, 1 << 63].map(|bits| {
        let mut words = [0; FLOOR_WORDS];
        words[5] = bits;
        Floor::from(words)
    });
    assert!(zeros[0].vapor_fraction == zeros[1].vapor_fraction && zeros[0] != zeros[1]);
    let nan = [u64::MAX; FLOOR_WORDS];
    assert_eq!(Floor::from(nan).words(), nan);
    assert_eq!(Floor::from(nan), Floor::from(nan));
}
