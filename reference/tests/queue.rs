//! Queues on the reference: the borders of 39, 10 and the allowance, each question beside a plain call of its own, and a second
//! reckoning of what is put off; word 38 of flashes, and how many evaluations they can begin.

mod common;

use std::collections::BTreeMap;

use common::{bytes, call, Ask};
use reference::evaluations::{counted, most};
use reference::generate::cases::Cases;
use reference::generate::mass::entered;
use reference::generate::queues::{ask, borders, full};
use reference::generate::small::sealed_by;
use reference::generate::Rng;
use reference::sheet::blocks::{bytes_of, check_right, rule_of, words_of, Words, BLOCK};
use reference::sheet::question::{Question, FRACTIONS, MAX_ITERATIONS, TASK};
use reference::sheet::queue::{self, Due};
use reference::sheet::{self, open_book, program_output, ANSWER_BYTES};
use reference::stage::{bytes_as_words, parts, Case, Stage};
use reference::strike::{difference, Sheet};
use reference::types::{Pressure, Temperature};
use reference::with::With;

/// What stands in a slice before a call: no two parts are alike.
fn noise(room: usize) -> Vec<u8> {
    let mut rng = Rng::new(room as u64);
    (0..room).map(|_| rng.bits() as u8).collect()
}

/// The number and every byte of the slice.
fn called(book: &[u8], questions: &[u8], allowance: u64, room: usize) -> (u32, Vec<u8>) {
    let mut after = noise(room);
    let number = queue::answer(book, questions, allowance, &mut after);
    (number, after)
}

struct Queue {
    book: Vec<u8>,
    questions: Vec<u8>,
    allowance: u64,
    room: usize,
}

impl Queue {
    fn called(&self) -> (u32, Vec<u8>) {
        called(&self.book, &self.questions, self.allowance, self.room)
    }
}

fn generated(seed: u64, count: usize) -> impl Iterator<Item = Queue> {
    Cases::new(Stage::Queue, seed, false).take(count).map(|case| match case {
        Case::With { with: With::Allowance, book, question: questions, lent, room } => {
            let allowance = u64::from_le_bytes(lent.try_into().expect("eight bytes"));
            Queue { book, questions, allowance, room }
        }
        _ => panic!("a queue"),
    })
}

#[test]
fn borders_have_their_dues() {
    for (case, dues) in borders() {
        let found = case.expected();
        let Case::With { question, room, .. } = &case else { panic!("a queue") };
        let all = match found.refusal {
            0 => Ok(parts(&found.words, question.len() / BLOCK).map(Due::of).collect()),
            number => Err(number),
        };
        assert_eq!(all, dues, "{}", case.line());
        assert_eq!(found.words.len(), 1 + room.div_ceil(8));
    }
}

/// The word of a part's own count; 0 of a refused one, which has none.
fn evaluations(part: &[u64]) -> u64 {
    part[38]
}

/// Each question has, in every byte, what a plain call leaves, the block that the program writes, or that of one put off. Second
/// reckoning: what is refused first is told by the questions up to 23 and the pure liquids, with nothing run; m by the question's own
/// mole feed.
#[test]
fn questions_equal_plain() {
    let (mut answered, mut refused, mut put_off, mut both) = (0, BTreeMap::new(), 0, 0);
    for queue in generated(91, 1300) {
        let (number, after) = queue.called();
        if number != 0 {
            assert!(after == noise(queue.room));
            continue;
        }
        let mut due = noise(queue.room);
        let mut left = queue.allowance;
        let mut seen = [false; 3];
        for (question, part) in queue.questions.chunks_exact(BLOCK).zip(due.chunks_mut(ANSWER_BYTES)) {
            match asks_for(&queue.book, question) {
                Err(number) => {
                    let written = program_output(&queue.book, question);
                    assert_eq!((words_of(&written)[2], written.len()), (number.into(), BLOCK));
                    part[..BLOCK].copy_from_slice(&written);
                    *refused.entry(number).or_insert(0) += 1;
                    seen[1] = true;
                }
                Ok(formula) if formula > left => {
                    let mut words = [0; 64];
                    words[..4].copy_from_slice(&[9, 7, 0, 4]);
                    part[..BLOCK].copy_from_slice(&sealed_by(rule_of(&queue.book), words));
                    put_off += 1;
                    seen[2] = true;
                }
                Ok(formula) => {
                    let (written, begun) = counted(|| program_output(&queue.book, question));
                    part[..written.len()].copy_from_slice(&written);
                    assert!((1..=formula).contains(&begun));
                    let words = bytes_as_words(part);
                    match words[2] {
                        0 => assert_eq!(evaluations(&words), begun),
                        number => *refused.entry(number as u32).or_insert(0) += 1,
                    }
                    left -= begun;
                    answered += usize::from(words[2] == 0);
                    seen[usize::from(words[2] != 0)] = true;
                }
            }
        }
        assert!(after == due);
        both += usize::from(seen == [true; 3]);
    }
    assert!(answered > 2500 && put_off > 2500 && both > 80, "{answered} {put_off} {both}");
    let all = [11, 13, 14, 15, 16, 18, 19, 20, 21, 22, 23, 24, 25, 27, 29, 34, 36];
    assert!(all.iter().all(|number| refused.get(number).is_some_and(|times| *times > 2)), "{refused:?}");
}

/// (m + 2) M + 4, or the number of a question that is refused before any evaluation.
fn asks_for(book: &[u8], question: &[u8]) -> Result<u64, u32> {
    let book = open_book(book).expect("it has passed");
    let question = Question::read(question, book.rule)?;
    assert_eq!(question.task(), 7);
    let feed = question.ask(&book)?;
    let number = |error: reference::types::CalculationError| error.number();
    let t = Temperature::new(question.temperature()).expect("13 has passed");
    let p = Pressure::new(question.pressure()).expect("14 has passed");
    let model = book.model().with_fractions(&feed).map_err(number)?;
    model.check_domain(t, p).map_err(number)?;
    for liquid in model.liquids() {
        liquid.vapor_pressure(t).map_err(number)?;
    }
    let m = feed.iter().filter(|z| **z > 0.0).count() as u64;
    Ok((m + 2) * question.max_iterations() + 4)
}

/// 39: every length up to 66 questions; 10: every room around the least.
#[test]
fn lengths_and_rooms() {
    let book = bytes(&entered(&[0.018, 0.046]));
    let question = ask().bytes_for(&book);
    let full = question.repeat(66);
    for length in 0..=full.len() {
        let right = (512..=32_768).contains(&length) && length % 512 == 0;
        let number = if right { 10 } else { 39 };
        // No room at all: 39 comes first.
        assert_eq!(called(&book, &full[..length], u64::MAX, 0).0, number);
    }
    for q in [1, 2, 5, 63, 64] {
        let least = 4608 * q;
        for room in [0, 1, 4607, least - 4608, least - 512, least - 1] {
            let number = if room < least { 10 } else { 0 };
            let (found, after) = called(&book, &full[..512 * q], 0, room);
            assert_eq!(found, number);
            assert!(number == 0 || after == noise(room));
        }
        for room in [least, least + 1, least + 4608] {
            let (number, after) = called(&book, &full[..512 * q], u64::MAX, room);
            assert_eq!(number, 0);
            assert_eq!(after[least..], noise(room)[least..]);
        }
    }
}

/// A task in a block that passes 11 is asked for; in one that doesn't it isn't, and its block has 11 and task 0.
#[test]
fn tasks_where_11_passes() {
    for version in 1..=3 {
        let mut book = entered(&[0.018, 0.046]);
        book[0][1] = version;
        let book = bytes(&book);
        let right = ask().bytes_for(&book);
        for task in (0..=12).chain([263, 1 << 32 | 7, u64::MAX]) {
            let other = ask().word(TASK, task).bytes_for(&book);
            let number = if task == 7 { 0 } else { 39 };
            assert_eq!(called(&book, &[&right[..], &other].concat(), u64::MAX, 2 * ANSWER_BYTES).0, number);
            for at in [0, 8, 8 * FRACTIONS, 8 * 63] {
                let mut wrong = other.clone();
                wrong[at] ^= 1;
                let (number, after) = called(&book, &[&wrong[..], &right].concat(), u64::MAX, 2 * ANSWER_BYTES);
                let head = words_of(&after[..BLOCK]);
                assert_eq!((number, &head[..4]), (0, &[9, 0, 11, 0][..]));
                assert!(check_right(&head, rule_of(&book)));
                assert_eq!(after[BLOCK..ANSWER_BYTES], noise(2 * ANSWER_BYTES)[BLOCK..ANSWER_BYTES]);
            }
        }
    }
}

/// The block of a question that is put off, by both rules.
#[test]
fn the_block_put_off() {
    for version in 1..=3 {
        let mut book = entered(&[0.018, 0.046]);
        book[0][1] = version;
        let book = bytes(&book);
        let (number, after) = called(&book, &ask().bytes_for(&book), 803, ANSWER_BYTES + 5);
        let mut words = [0; 64];
        words[..4].copy_from_slice(&[9, 7, 0, 4]);
        words[63] = if version == 3 { 63 * 9 + 62 * 7 + 60 * 4 } else { 9 + 7 + 4 };
        assert_eq!((number, &after[..BLOCK]), (0, &bytes_of(&words)[..]));
        assert_eq!(after[BLOCK..], noise(ANSWER_BYTES + 5)[BLOCK..]);
    }
}

/// Demand 3, word 38 included: solvents that a question lacks, struck, leave its answer as it was, and what is put off stays so.
#[test]
fn solvents_in_no_question_do_not_show() {
    let mut rng = Rng::new(101);
    let (mut struck, mut put_off) = (0, 0);
    for queue in generated(103, 900) {
        let (number, after) = queue.called();
        if number != 0 {
            continue;
        }
        let written = |bytes: &[u8]| -> Vec<Words> {
            let all: Vec<_> = bytes.chunks_exact(BLOCK).map(words_of).collect();
            all[..1 + all[0][12] as usize].to_vec()
        };
        for (question, part) in queue.questions.chunks_exact(BLOCK).zip(after.chunks_exact(ANSWER_BYTES)).take(6) {
            let sheet = Sheet { book: queue.book.clone(), question: question.to_vec() };
            let words = bytes_as_words(part);
            let due = Due::of(&words);
            if !matches!(due, Due::Answered | Due::PutOff) || sheet.kept().len() == sheet.feed().len() {
                continue;
            }
            let short = sheet.shorter(&mut rng, &sheet.kept());
            // As much as it asks for, or one less.
            let formula = asks_for(&sheet.book, question).expect("not refused first");
            assert_eq!(asks_for(&short.book, &short.question), Ok(formula));
            let allowance = if due == Due::PutOff { formula - 1 } else { formula };
            let (number, shorter) = called(&short.book, &short.question, allowance, ANSWER_BYTES);
            assert_eq!(number, 0);
            assert_eq!(difference(&written(part), &written(&shorter), &sheet.kept()), None);
            match due {
                Due::PutOff => put_off += 1,
                _ => struck += 1,
            }
        }
    }
    assert!(struck > 300 && put_off > 200, "{struck} {put_off}");
}

/// Word 38 from the counts of iterations: 1 at the bubble point; with two solvents and more one for each turn of the dew point and one
/// behind it; 1 at the feed and one for each turn of the split; 1 at the liquid and one for each turn of its trials.
#[test]
fn the_word_from_iterations() {
    let mut seen = [0; 4];
    for case in Cases::new(Stage::Sheet, 19, false).take(25_000) {
        let Case::Sheet { book, question, .. } = case else { panic!("a sheet") };
        if question.len() != BLOCK || words_of(&question)[TASK] != 7 {
            continue;
        }
        let asked = Ask(words_of(&question));
        let Ok(blocks) = call(&book, asked) else { continue };
        let head = &blocks[0];
        let [p, bubble, dew] = [5, 6, 7].map(|at| f64::from_bits(head[at]));
        // Of a split at the boundary the iterations aren't told; of a dew point only where its pressure is in the domain.
        if head[13] & 2 != 0 {
            continue;
        }
        let n = words_of(&book[..BLOCK])[2] as usize;
        let m = (0..n).filter(|i| f64::from_bits(asked.0[FRACTIONS + i]) > 0.0).count();
        let dew_turns = match call(&book, asked.word(TASK, 3)) {
            Ok(found) => found[0][8],
            Err(_) => continue,
        };
        let mut count = 1;
        if m > 1 {
            count += dew_turns + 1;
        }
        if dew < p && p < bubble {
            count += 1 + head[8];
        }
        if head[3] != 2 {
            count += 1 + blocks[1..].iter().map(|trial| trial[3]).sum::<u64>();
        }
        assert_eq!(head[38], count);
        seen[head[3] as usize] += 1;
        seen[0] += usize::from(m == 1);
    }
    assert!(seen.iter().all(|times| *times > 40), "{seen:?}");
}

/// 0 in every other task, where evaluations are begun too.
#[test]
fn the_word_of_a_flash_alone() {
    let book = bytes(&entered(&[0.018, 0.046]));
    for task in 1..=9 {
        let head = call(&book, Ask::new(task, &[0.3, 0.7]).under(1.2e4).k(&[2.0, 0.5])).expect("an answer")[0];
        assert_eq!(head[38] == 0, task != 7, "task {task}");
    }
    // The flash of the borders has two phases.
    assert_eq!(call(&book, ask()).expect("an answer")[0][3], 3);
}

/// No flash begins more than (m + 2) M + 4, refused or not; some begin just that.
#[test]
fn most_evaluations() {
    let (mut accepted, mut refused) = (0, 0);
    for case in Cases::new(Stage::Sheet, 17, false).take(25_000).chain(Cases::new(Stage::Mass, 17, false).take(8_000)) {
        let Case::Sheet { book, question, room } = case else { panic!("a sheet") };
        if question.len() != BLOCK || words_of(&question)[TASK] != 7 {
            continue;
        }
        let (number, begun) = counted(|| sheet::answer(&book, &question, &mut vec![0; room]));
        if begun == 0 {
            assert!(number != 0);
            continue;
        }
        assert!(begun <= asks_for(&book, &question).expect("not refused first"));
        accepted += usize::from(number == 0);
        refused += usize::from(number != 0);
    }
    assert!(accepted > 1500 && refused > 500, "{accepted} {refused}");
    for found in full() {
        let book = bytes(&found.book);
        let blocks = call(&book, found.ask).expect("an answer");
        let head = blocks[0];
        assert_eq!((head[3], head[8], head[12]), (3, found.limit, found.m as u64));
        assert!(blocks[1..].iter().all(|trial| trial[3] == found.limit));
        assert_eq!(head[38], found.most());
        // One turn less is refused, within its own bound.
        let short = found.ask.word(MAX_ITERATIONS, found.limit - 1).bytes();
        let (number, begun) = counted(|| sheet::answer(&book, &short, &mut [0; ANSWER_BYTES]));
        assert_eq!(number, 27);
        assert!(begun <= most(found.m, found.limit - 1));
    }
    assert_eq!(full().iter().map(|found| found.most()).collect::<Vec<_>>(), [20, 54]);
}

/// What the generator of the comparison makes: every number, and enough of each kind.
#[test]
fn generated_queues() {
    let (mut calls, mut refused, mut answered, mut put_off) = ([0; 40], [0; 40], 0, 0);
    for case in Cases::new(Stage::Queue, 103, false).take(2500) {
        let found = case.expected();
        let Case::With { question, .. } = &case else { panic!("a queue") };
        calls[found.refusal as usize] += 1;
        if found.refusal != 0 {
            continue;
        }
        for due in parts(&found.words, question.len() / BLOCK).map(Due::of) {
            match due {
                Due::Answered => answered += 1,
                Due::Refused(number) => refused[number as usize] += 1,
                Due::PutOff => put_off += 1,
            }
        }
    }
    let ends = (1..=10).chain([35, 37, 38, 39]);
    assert!(ends.clone().all(|number| calls[number] > 0), "{calls:?}");
    assert_eq!(calls.iter().sum::<usize>() - calls[0], ends.map(|number| calls[number]).sum::<usize>());
    assert!(calls[39] >= 100 && calls[10] >= 50, "{calls:?}");
    let arise = [11, 13, 14, 15, 16].into_iter().chain(18..=25).chain([27, 28, 29, 34, 36]);
    assert!(arise.clone().all(|number| refused[number] > 0), "{refused:?}");
    assert!(answered >= 5000 && put_off >= 5000, "{answered} {put_off} {refused:?}");
}
