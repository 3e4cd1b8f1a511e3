//! Queues: each question against the call on its own, what the allowance holds and what is put off, what ends the whole
//! call, and every byte of the slice.

#[path = "../examples/ethanol_water/mod.rs"]
mod ethanol_water;

use ethanol_water::{ethanol_water, in_the_making};
use zektonk::{answer, answer_bytes, most_evaluations, queue, queue_bytes, tp_flash};
use zektonk::{
    Answer, Block, Book, Feed, Kelvin, Options, Pascal, Question, Queued, Reason, Task, Words, ANSWER_ROOM, QUEUE_MOST,
};

const STORED_BOOK: &[u8] = include_bytes!("../../../crates/still/data/book.bin");
const STORED_QUESTION: &[u8] = include_bytes!("../../../crates/still/stdin");

/// Of equal parts at 351.44 K: vapor below about 80 kPa, liquid above about 96.
fn flash(pressure: f64, max_iterations: u64) -> Question {
    let options = Options { max_iterations, ..Options::default() };
    Question::new(Task::TpFlash { temperature: Kelvin(351.44), pressure: Pascal(pressure), options }, [0.5, 0.5])
}

fn books() -> [Book<'static>; 3] {
    let weighed = in_the_making().molar_masses([0.046, 0.018]);
    [ethanol_water().unwrap(), weighed.build().unwrap(), weighed.version(2).build().unwrap()]
}

/// As `answer` has it.
fn alone(book: &Book<'_>, question: &Question) -> Queued {
    match answer(book, question) {
        Ok(Answer::TpFlash(flash)) => Queued::Answered(flash),
        Ok(other) => panic!("{other:?}"),
        Err(refusal) => Queued::Refused(refusal),
    }
}

#[test]
fn each_question_is_answered_as_by_a_call_on_its_own() {
    let (mut answered, mut refused) = (0, 0);
    for book in &books() {
        let mut questions: Vec<Question> = (0..=20).map(|k| flash(70e3 + 2e3 * f64::from(k), 500)).collect();
        questions.extend([flash(0.0, 500), flash(90e3, 0), flash(90e3, 1), flash(600e3, 500)]);
        questions.push(Question::new(questions[5].task, [0.5, 0.4]));
        questions.push(Question::new(questions[5].task, Feed::mass([0.5, 0.5])));
        let found = queue(book, &questions, u64::MAX).unwrap();
        let due: Vec<Queued> = questions.iter().map(|question| alone(book, question)).collect();
        assert_eq!(found, due);
        answered += found.iter().filter(|entry| entry.flash().is_some()).count();
        refused += found.iter().filter(|entry| matches!(entry, Queued::Refused(_))).count();
    }
    // By mass the first book, without molar masses, refuses (36).
    assert_eq!((answered, refused), (3 * 21 + 2, 3 * 5 + 1));
}

#[test]
fn evaluations_of_a_flash() {
    let book = ethanol_water().unwrap();
    let begun = |pressure: f64, feed: [f64; 2]| {
        let found = tp_flash(&book, feed, Kelvin(351.44), Pascal(pressure), Options::default()).unwrap();
        assert!(found.evaluations <= most_evaluations(feed.iter().filter(|z| **z > 0.0).count(), 500));
        found.evaluations
    };
    // 1 at the bubble point, 48 and 1 of the dew point; 1 and 73 of the split; 1 and 59 twice of the trials.
    assert_eq!(begun(90e3, [0.5, 0.5]), 243);
    assert_eq!(begun(70e3, [0.5, 0.5]), 50);
    // One solvent: 1 as a vapor, 2 as a liquid.
    assert_eq!((begun(70e3, [1.0, 0.0]), begun(200e3, [1.0, 0.0])), (1, 2));
}

#[test]
fn real_counts_are_taken_off() {
    for book in &books() {
        let most = most_evaluations(2, 500);
        let (first, last) = (flash(90e3, 500), flash(70e3, 500));
        let after = |allowance| queue(book, &[first, last], allowance).unwrap();
        assert_eq!(after(most - 1), [Queued::PutOff, Queued::PutOff]);
        assert_eq!(after(most), [alone(book, &first), Queued::PutOff]);
        assert_eq!(after(most + 242), [alone(book, &first), Queued::PutOff]);
        assert_eq!(after(most + 243), [alone(book, &first), alone(book, &last)]);
        // A question that asks for more is put off, and the next is tried.
        let large = flash(90e3, 1_000_000);
        assert_eq!(queue(book, &[large, last], most).unwrap(), [Queued::PutOff, alone(book, &last)]);
        // Refused ahead of its first evaluation, with nothing left; refused later it takes 2, where 8 are asked for.
        assert_eq!(queue(book, &[flash(1.0, 500)], 0).unwrap(), [Queued::Refused(Reason::PressureOutside.into())]);
        let short = flash(90e3, 1);
        let refused = Queued::Refused(Reason::NotConverged.into());
        assert_eq!(queue(book, &[short, short], 9).unwrap(), [refused.clone(), Queued::PutOff]);
        assert_eq!(queue(book, &[short, short], 10).unwrap(), [refused.clone(), refused]);
    }
}

#[test]
fn how_many() {
    let book = ethanol_water().unwrap();
    let asked = |count: usize| queue(&book, &vec![flash(70e3, 500); count], u64::MAX);
    assert_eq!(asked(0), Err(Reason::QueueQuestions.into()));
    assert_eq!(asked(1).unwrap().len(), 1);
    let most = asked(QUEUE_MOST).unwrap();
    assert!(most.len() == QUEUE_MOST && most.iter().all(|entry| *entry == most[0]) && most[0].flash().is_some());
    assert_eq!(asked(QUEUE_MOST + 1), Err(Reason::QueueQuestions.into()));
}

#[test]
fn other_tasks_end_the_call() {
    let book = ethanol_water().unwrap();
    let (temperature, pressure, options) = (Kelvin(351.44), Pascal(90e3), Options::default());
    for task in [
        Task::ExcessAt { temperature },
        Task::DewPressure { temperature, options },
        Task::BubbleTemperature { pressure, options },
        Task::LiquidStability { temperature, options },
        Task::RachfordRice { k: [2.0, 0.5].into(), max_iterations: 200 },
    ] {
        let other = Question::new(task, [0.5, 0.5]);
        for questions in [vec![other], vec![flash(90e3, 500), other], vec![other, flash(90e3, 500)]] {
            assert_eq!(queue(&book, &questions, u64::MAX), Err(Reason::QueueQuestions.into()));
        }
    }
}

#[test]
fn what_the_crate_refuses() {
    let book = ethanol_water().unwrap();
    let short = Question::new(flash(90e3, 500).task, [1.0]);
    assert_eq!(queue(&book, &[flash(90e3, 500), short], 0), Err(Reason::FeedLength { entries: 1, solvents: 2 }.into()));
    assert_eq!(queue(&Book::from(&[][..]), &[], 0), Err(Reason::BookLength.into()));
}

/// The stored one with another word.
fn question(at: usize, word: u64) -> [u8; 512] {
    let stored = Block::of(STORED_QUESTION, 0).unwrap();
    (1..63).fold(Words::new(8), |words, k| words.word(k, if k == at { word } else { stored.word(k) })).seal()
}

#[test]
fn every_byte_of_the_slice() {
    let mut broken = question(1, 2);
    broken[100] ^= 1;
    let questions = [question(2, 0), question(12, 500), broken, question(12, 500), question(12, 9)];
    let before: Vec<u8> = (0..5 * ANSWER_ROOM + 9).map(|k| (7 * k + 3) as u8).collect();
    let mut room = before.clone();
    queue_bytes(STORED_BOOK, &questions.concat(), 2004, &mut room).unwrap();
    let mut due = before.clone();
    let mut put = |k: usize, block: [u8; 512]| due[ANSWER_ROOM * k..][..512].copy_from_slice(&block);
    put(0, Words::new(9).word(1, 7).word(2, 13).seal());
    // Another task, which isn't asked for where 11 fails.
    put(2, Words::new(9).word(2, 11).seal());
    put(3, Words::new(9).word(1, 7).word(3, 4).seal());
    // The dew point takes its 9 turns.
    put(4, Words::new(9).word(1, 7).word(2, 27).seal());
    answer_bytes(STORED_BOOK, &questions[1], &mut due[ANSWER_ROOM..][..ANSWER_ROOM]).unwrap();
    assert!(room == due);
    let read = |k: usize| Queued::decode(&room[ANSWER_ROOM * k..][..ANSWER_ROOM], 2).unwrap();
    assert_eq!(read(0), Queued::Refused(Reason::Temperature.into()));
    assert_eq!(read(1).flash().map(|flash| flash.evaluations), Some(243));
    assert_eq!(read(2), Queued::Refused(Reason::QuestionBlock.into()));
    assert_eq!((read(3), read(4)), (Queued::PutOff, Queued::Refused(Reason::NotConverged.into())));
}

#[test]
fn bytes_of_a_refused_call_stay() {
    let before: Vec<u8> = (0..65 * ANSWER_ROOM).map(|k| (7 * k + 3) as u8).collect();
    let mut room = before.clone();
    let all = STORED_QUESTION.repeat(65);
    let mut put = |book: &[u8], questions: &[u8], length: usize, reason: Reason| {
        assert_eq!(queue_bytes(book, questions, u64::MAX, &mut room[..length]), Err(reason.into()));
        assert!(room == before);
    };
    for length in [0, 1, 511, 513, 1023, 64 * 512 - 1, 64 * 512 + 1, 65 * 512] {
        // 39 ahead of 10.
        put(STORED_BOOK, &all[..length], 65 * ANSWER_ROOM, Reason::QueueQuestions);
        put(STORED_BOOK, &all[..length], 0, Reason::QueueQuestions);
        // The book ahead of both.
        put(&STORED_BOOK[1..], &all[..length], 0, Reason::BookLength);
    }
    let other = [STORED_QUESTION, &question(1, 6)].concat();
    put(STORED_BOOK, &other, 2 * ANSWER_ROOM, Reason::QueueQuestions);
    put(STORED_BOOK, &other, 0, Reason::QueueQuestions);
    for count in [1, 2, 64] {
        put(STORED_BOOK, &all[..512 * count], count * ANSWER_ROOM - 1, Reason::AnswerShort);
        put(STORED_BOOK, &all[..512 * count], (count - 1) * ANSWER_ROOM, Reason::AnswerShort);
    }
}
