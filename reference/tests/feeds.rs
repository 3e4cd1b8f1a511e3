//! Many feeds on the reference: samples, the borders of 33, 10, 11, 12 and 36, and each feed beside a plain call of its own.

mod common;

use common::{bytes, put, Ask};
use reference::generate::batches::{ask, borders, feed};
use reference::generate::cases::Cases;
use reference::generate::mass::entered;
use reference::generate::small::{blocks, sealed_by};
use reference::generate::Rng;
use reference::sheet::blocks::{bytes_of, check_right, rule_of, words_of, Words, BLOCK};
use reference::sheet::feeds::{self, bytes_of_feeds, FEED, TASKS};
use reference::sheet::question::{Question, BASIS, BY_MASS, FRACTIONS, TASK};
use reference::sheet::{self, open_book, program_output, ANSWER_BYTES};
use reference::stage::{Case, Stage};
use reference::strike::{difference, Sheet};
use reference::with::With;

/// What stands in a slice before a call: no two parts are alike.
fn noise(room: usize) -> Vec<u8> {
    let mut rng = Rng::new(room as u64);
    (0..room).map(|_| rng.bits() as u8).collect()
}

/// The number and every byte of the slice.
fn called(book: &[u8], question: &[u8], feeds: &[u8], room: usize) -> (u32, Vec<u8>) {
    let mut after = noise(room);
    let number = feeds::answer(book, question, feeds, &mut after);
    (number, after)
}

struct Batch {
    book: Vec<u8>,
    question: Vec<u8>,
    feeds: Vec<u8>,
    room: usize,
}

impl Batch {
    fn called(&self) -> (u32, Vec<u8>) {
        called(&self.book, &self.question, &self.feeds, self.room)
    }

    /// n, where the book, 33, 10, 11, 12 and 36 pass.
    fn asked(&self) -> Option<usize> {
        let book = open_book(&self.book).ok()?;
        let question = Question::read(&self.question, book.rule).ok()?;
        let by_mass = words_of(&self.question)[BASIS] == BY_MASS && book.molar_masses.is_some();
        let right = TASKS.contains(&question.task()) && (question.by_moles() || by_mass) && self.called().0 == 0;
        right.then_some(book.solvents.len())
    }
}

fn generated(seed: u64, count: usize) -> impl Iterator<Item = Batch> {
    Cases::new(Stage::Feeds, seed, false).take(count).map(|case| match case {
        Case::With { with: With::Feeds, book, question, lent: feeds, room } => Batch { book, question, feeds, room },
        _ => panic!("a call with feeds"),
    })
}

fn number_of(part: &[u8]) -> u64 {
    words_of(&part[..BLOCK])[2]
}

/// Two feeds of (j) of docs/FORMAT.md around one that is refused: ln γ 0, 18, ln γ 0.
#[test]
fn the_samples() {
    let book = bytes(&blocks(&[4e6, 1e6], [0.0, 0.0]));
    let question = Ask::new(1, &[2.0, 2.0]).at(300.0).bytes();
    let halves = feed(&[0.5, 0.5]);
    let three = bytes_of_feeds(&[halves, feed(&[0.5, 0.5000000002]), halves]);
    let (number, after) = called(&book, &question, &three, 3 * ANSWER_BYTES + 7);
    assert_eq!(number, 0);
    let before = noise(3 * ANSWER_BYTES + 7);
    let mut alone = before.clone();
    let plain = Ask::new(1, &[0.5, 0.5]).at(300.0).bytes();
    let mut refusal = [0; 64];
    refusal[..3].copy_from_slice(&[9, 1, 18]);
    refusal[63] = 28;
    for k in [0, 2] {
        assert_eq!(sheet::answer(&book, &plain, &mut alone[k * ANSWER_BYTES..(k + 1) * ANSWER_BYTES]), 0);
    }
    alone[ANSWER_BYTES..ANSWER_BYTES + BLOCK].copy_from_slice(&bytes_of(&refusal));
    assert_eq!(after, alone);
    assert_eq!(words_of(&after[..BLOCK])[14..16], [0, 0]);
    assert_eq!(called(&book, &question, &[], ANSWER_BYTES), (33, noise(ANSWER_BYTES)));
    assert_eq!(called(&book, &question, &three, 3 * ANSWER_BYTES - 1), (10, noise(3 * ANSWER_BYTES - 1)));
}

#[test]
fn borders_have_their_numbers() {
    for (case, numbers) in borders() {
        let found = case.expected();
        let Case::With { lent, room, .. } = &case else { panic!("a call with feeds") };
        let all = match found.refusal {
            0 => Ok((0..lent.len() / FEED).map(|k| found.words[1 + 576 * k + 2] as u32).collect()),
            number => Err(number),
        };
        assert_eq!(all, numbers, "{}", case.line());
        assert_eq!(found.words.len(), 1 + room.div_ceil(8));
    }
}

/// 33: every length up to 70 feeds; 10: every room around the least.
#[test]
fn lengths_and_rooms() {
    let book = bytes(&entered(&[0.018, 0.046]));
    let question = ask(1).bytes_for(&book);
    let full = bytes_of_feeds(&[feed(&[0.3, 0.7]); 70]);
    for length in 0..=full.len() {
        let right = (64..=4096).contains(&length) && length % 64 == 0;
        let number = if right { 10 } else { 33 };
        // No room at all: 33 comes first.
        assert_eq!(called(&book, &question, &full[..length], 0).0, number);
    }
    for m in [1, 2, 5, 63, 64] {
        let least = 4608 * m;
        for room in [0, 1, 4607, 4608, least - 4608, least - 512, least - 1] {
            let number = if room < least { 10 } else { 0 };
            let (found, after) = called(&book, &question, &full[..64 * m], room);
            assert_eq!(found, number);
            assert!(number == 0 || after == noise(room));
        }
        for room in [least, least + 1, least + 4608] {
            let (number, after) = called(&book, &question, &full[..64 * m], room);
            assert_eq!(number, 0);
            assert_eq!(after[least..], noise(room)[least..]);
        }
    }
}

/// 11 of the question as it was sent, though its fractions aren't read; its block has task 0, as that of 12.
#[test]
fn the_question_keeps_its_check() {
    for version in 1..=3 {
        let mut book = entered(&[0.018, 0.046]);
        book[0][1] = version;
        let book = bytes(&book);
        let rule = rule_of(&book);
        let two = bytes_of_feeds(&[feed(&[0.3, 0.7]), feed(&[f64::NAN])]);
        let numbers = |question: &[u8]| -> Vec<[u64; 3]> {
            let (number, after) = called(&book, question, &two, 2 * ANSWER_BYTES);
            assert_eq!(number, 0);
            let heads = after.chunks_exact(ANSWER_BYTES).map(|part| words_of(&part[..BLOCK]));
            heads
                .inspect(|words| assert!(check_right(words, rule)))
                .map(|words| [words[0], words[1], words[2]])
                .collect()
        };
        let right = ask(1).bytes_for(&book);
        assert_eq!(numbers(&right), [[9, 1, 0], [9, 1, 15]]);
        for at in FRACTIONS..FRACTIONS + 8 {
            let mut wrong = right.clone();
            wrong[8 * at] ^= 1;
            assert_eq!(numbers(&wrong), [[9, 0, 11]; 2]);
        }
        assert_eq!(numbers(&right[..511]), [[9, 0, 11]; 2]);
        assert_eq!(numbers(&[]), [[9, 0, 11]; 2]);
        for task in [0, 4, 5, 8, 9, 10] {
            assert_eq!(numbers(&ask(task).bytes_for(&book)), [[9, 0, 12]; 2]);
        }
        for (word, number) in [(1, if version == 1 { 36 } else { 13 }), (2, 36), (1 << 63, 36)] {
            let question = ask(7).word(BASIS, word).at(0.0).bytes_for(&book);
            assert_eq!(numbers(&question), [[9, 7, number]; 2]);
        }
    }
}

/// Each feed has, in every byte, what a plain call on the question with that feed leaves, or the block that the program writes.
#[test]
fn feeds_equal_plain() {
    let (mut accepted, mut refused, mut mixed) = ([0; 8], 0, 0);
    for batch in generated(91, 1500) {
        if batch.asked().is_none() {
            continue;
        }
        let (_, after) = batch.called();
        let mut due = noise(batch.room);
        let rule = rule_of(&batch.book);
        let mut numbers = Vec::new();
        for (feed, part) in batch.feeds.chunks_exact(FEED).zip(due.chunks_mut(ANSWER_BYTES)) {
            let mut words = words_of(&batch.question);
            for (k, bytes) in feed.chunks_exact(8).enumerate() {
                words[FRACTIONS + k] = u64::from_le_bytes(bytes.try_into().expect("eight bytes"));
            }
            let question = sealed_by(rule, words);
            let number = sheet::answer(&batch.book, &question, part);
            if number != 0 {
                part[..BLOCK].copy_from_slice(&program_output(&batch.book, &question));
                assert!((13..=30).contains(&number) || number == 34);
            }
            numbers.push(number);
        }
        assert!(after == due);
        let yes = numbers.iter().filter(|number| **number == 0).count();
        accepted[words_of(&batch.question)[TASK] as usize] += yes;
        refused += numbers.len() - yes;
        mixed += usize::from((1..numbers.len()).contains(&yes));
    }
    assert!(TASKS.iter().all(|task| accepted[*task as usize] > 500), "{accepted:?}");
    assert!(refused > 2500 && mixed > 150, "{refused} {mixed}");
}

/// A call with all feeds is the calls with one feed each, side by side.
#[test]
fn feeds_do_not_meet() {
    let mut compared = 0;
    for batch in generated(97, 1200).filter(|batch| batch.feeds.len() > FEED) {
        let (number, after) = batch.called();
        if number != 0 {
            continue;
        }
        let mut due = noise(batch.room);
        for (feed, part) in batch.feeds.chunks_exact(FEED).zip(due.chunks_mut(ANSWER_BYTES)) {
            assert_eq!(feeds::answer(&batch.book, &batch.question, feed, part), 0);
        }
        assert!(after == due);
        compared += 1;
    }
    assert!(compared > 500, "{compared}");
}

/// Demand 3: solvents that a feed lacks, struck with their entries, leave its accepted answer as it was.
#[test]
fn solvents_in_no_feed_do_not_show() {
    let mut rng = Rng::new(101);
    let mut struck = [0; 8];
    for batch in generated(101, 1500) {
        let Some(n) = batch.asked() else { continue };
        let (_, after) = batch.called();
        let task = words_of(&batch.question)[TASK] as usize;
        for (feed, part) in batch.feeds.chunks_exact(FEED).zip(after.chunks_exact(ANSWER_BYTES)).take(6) {
            let words: Vec<u64> =
                feed.chunks_exact(8).map(|word| u64::from_le_bytes(word.try_into().expect("eight bytes"))).collect();
            let kept: Vec<usize> = (0..n).filter(|i| f64::from_bits(words[*i]) != 0.0).collect();
            if number_of(part) != 0 || kept.len() == n {
                continue;
            }
            let short = Sheet { book: batch.book.clone(), question: batch.question.clone() }.shorter(&mut rng, &kept);
            let entry = |i: usize| kept.get(i).map_or_else(|| rng.clone().bits(), |k| words[*k]);
            let struck_feed: [f64; 8] = std::array::from_fn(|i| f64::from_bits(entry(i)));
            let (number, shorter) = called(&short.book, &short.question, &bytes_of_feeds(&[struck_feed]), ANSWER_BYTES);
            assert_eq!((number, number_of(&shorter)), (0, 0));
            let written = |bytes: &[u8]| -> Vec<Words> {
                let all: Vec<_> = bytes.chunks_exact(BLOCK).map(words_of).collect();
                all[..1 + all[0][12] as usize].to_vec()
            };
            assert_eq!(difference(&written(part), &written(&shorter), &kept), None);
            struck[task] += 1;
        }
    }
    assert!(TASKS.iter().all(|task| struck[*task as usize] > 100), "{struck:?}");
}

/// By mass, feeds are mass fractions.
#[test]
fn feeds_by_mass() {
    let masses = [0.018, 0.046];
    let book = bytes(&entered(&masses));
    let w = [0.3, 0.7];
    let moles = w.iter().zip(masses).map(|(w, mass)| w / mass);
    let total: f64 = moles.clone().sum();
    let x: Vec<f64> = moles.map(|moles| moles / total).collect();
    let by_mass = ask(2).word(BASIS, BY_MASS).bytes_for(&book);
    let by_moles = ask(2).bytes_for(&book);
    let two = |x: &[f64]| bytes_of_feeds(&[feed(x), feed(x)]);
    let [a, b] = [(&by_mass, two(&w)), (&by_moles, two(&x))]
        .map(|(question, feeds)| called(&book, question, &feeds, 2 * ANSWER_BYTES));
    assert_eq!(a, b);
    assert_eq!((a.0, number_of(&a.1)), (0, 0));
    let mut plain = words_of(&by_mass);
    put(&mut plain, FRACTIONS, &w);
    let mut due = noise(2 * ANSWER_BYTES);
    assert_eq!(sheet::answer(&book, &sealed_by(rule_of(&book), plain), &mut due), 0);
    assert_eq!(a.1[..ANSWER_BYTES], due[..ANSWER_BYTES]);
}

/// What the generator of the comparison makes: every number, and enough of each kind.
#[test]
fn generated_calls() {
    let (mut calls, mut feeds) = ([0; 40], [0; 40]);
    for case in Cases::new(Stage::Feeds, 103, false).take(4000) {
        let found = case.expected();
        let Case::With { lent, .. } = &case else { panic!("a call with feeds") };
        calls[found.refusal as usize] += 1;
        if found.refusal == 0 {
            (0..lent.len() / FEED).for_each(|k| feeds[found.words[1 + 576 * k + 2] as usize] += 1);
        }
    }
    let ends = (1..=10).chain([33, 35, 37, 38]);
    assert!(ends.clone().all(|number| calls[number] > 0), "{calls:?}");
    assert_eq!(calls.iter().sum::<usize>() - calls[0], ends.map(|number| calls[number]).sum::<usize>());
    assert!(calls[33] >= 100 && calls[10] >= 100, "{calls:?}");
    let arise = (11..=16).chain(18..=25).chain([27, 29, 34, 36]);
    assert!(arise.clone().all(|number| feeds[number] > 0), "{feeds:?}");
    let all: usize = feeds.iter().sum();
    assert!(all >= 40_000 && feeds[0] >= 18_000, "{all} {feeds:?}");
}
