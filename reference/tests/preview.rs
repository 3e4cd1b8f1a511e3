//! Previews on the reference: the borders of the offered block's numbers, and previews beside plain calls on an edited book.

mod common;

use common::{bytes, Ask};
use reference::generate::cases::Cases;
use reference::generate::mass::entered;
use reference::generate::previews::{ask, borders};
use reference::generate::small::sealed_by;
use reference::generate::Rng;
use reference::sheet::blocks::{rule_of, words_of, Words, BLOCK};
use reference::sheet::book::due_pairs;
use reference::sheet::{self, open_book, preview, ANSWER_BYTES};
use reference::stage::{Case, Stage};
use reference::strike::{difference, Sheet};
use reference::with::With;

const ROOM: usize = ANSWER_BYTES + 5;

/// The number and every byte of the slice.
fn tried(book: &[u8], offered: &[u8], question: &[u8]) -> (u32, Vec<u8>) {
    let mut after = vec![0xee; ROOM];
    let number = preview::answer(book, offered, question, &mut after);
    (number, after)
}

/// The plain call.
fn plain(book: &[u8], question: &[u8]) -> (u32, Vec<u8>) {
    let mut after = vec![0xee; ROOM];
    let number = sheet::answer(book, question, &mut after);
    (number, after)
}

struct Preview {
    book: Vec<u8>,
    offered: Vec<u8>,
    question: Vec<u8>,
}

fn generated(seed: u64, count: usize) -> impl Iterator<Item = Preview> {
    Cases::new(Stage::Preview, seed, false).take(count).map(|case| match case {
        Case::With { with: With::Pair, book, question, lent: offered, .. } => Preview { book, offered, question },
        _ => panic!("a preview"),
    })
}

#[test]
fn borders_have_their_numbers() {
    for (case, number) in borders() {
        assert_eq!(case.expected().refusal, number, "{}", case.line());
    }
}

/// The book's own block offered is the plain call, whatever the book.
#[test]
fn the_own_block_changes_nothing() {
    let mut compared = [0; 10];
    for Preview { book, question, .. } in generated(107, 6000) {
        let Ok(opened) = open_book(&book) else { continue };
        let n = opened.solvents.len();
        let due = plain(&book, &question);
        for place in 0..due_pairs(n).len() {
            let own = &book[BLOCK * (1 + n + place)..BLOCK * (2 + n + place)];
            assert_eq!(preview::copy_with(&book, own), book);
            if place < 2 {
                assert_eq!(tried(&book, own, &question), due);
            }
        }
        if due.0 == 0 {
            compared[words_of(&question)[1] as usize] += 1;
        }
    }
    assert!(compared[1..].iter().all(|times| *times > 100), "{compared:?}");
}

/// Where the book passes, a preview is the plain call on the book with that pair, found by its i and j; and its numbers are those of
/// that book's pair.
#[test]
fn previews_equal_plain() {
    let (mut accepted, mut refused) = ([0; 10], [0; 10]);
    for Preview { book, offered, question } in generated(109, 15_000) {
        let found = tried(&book, &offered, &question);
        let Ok(opened) = open_book(&book) else {
            assert_eq!(found, plain(&book, &question));
            continue;
        };
        let n = opened.solvents.len();
        if offered.len() != BLOCK {
            assert_eq!(found.0, 1);
            refused[1] += 1;
            continue;
        }
        let words = words_of(&offered);
        let due = due_pairs(n).iter().position(|(i, j)| words[1..3] == [*i as u64, *j as u64]);
        // Where no pair is due, the last block stands for any.
        let place = if n == 1 { 1 } else { 1 + n + due.unwrap_or(0) };
        let mut blocks: Vec<&[u8]> = book.chunks_exact(BLOCK).collect();
        blocks[place] = &offered;
        match due {
            Some(_) => assert_eq!(found, plain(&blocks.concat(), &question)),
            None if n == 1 => assert!(matches!(found.0, 2 | 7)),
            None => assert_eq!(found.0, open_book(&blocks.concat()).expect_err("no such pair")),
        }
        match open_book(&blocks.concat()) {
            Err(number @ (2 | 7 | 8 | 9)) => refused[number as usize] += 1,
            _ if found.0 == 0 => accepted[words_of(&question)[1] as usize] += 1,
            _ => {}
        }
    }
    assert!(accepted[1..].iter().all(|times| *times > 200), "{accepted:?}");
    assert!([1, 2, 7, 8, 9].iter().all(|number| refused[*number] > 120), "{refused:?}");
}

/// The offered block alone decides: whatever the book's own pair with that i and j holds, as long as it passes 7 to 9.
#[test]
fn the_own_pair_is_not_read() {
    let mut rng = Rng::new(113);
    let mut compared = 0;
    for Preview { mut book, offered, question } in generated(113, 6000) {
        if open_book(&book).is_err() || preview::refused(&book, &offered) != 0 {
            continue;
        }
        let due = tried(&book, &offered, &question);
        let [i, j] = [1, 2].map(|at| words_of(&offered)[at]);
        let block = book.chunks_exact(BLOCK).position(|block| words_of(block)[..3] == [3, i, j]).expect("a pair");
        let mut words: Words = [0; 64];
        words.fill_with(|| rng.unit().to_bits());
        words[..3].copy_from_slice(&[3, i, j]);
        (words[13], words[14], words[15], words[18]) = (words[11], words[12], 1, 0);
        let rule = rule_of(&book);
        book[BLOCK * block..BLOCK * (block + 1)].copy_from_slice(&sealed_by(rule, words));
        assert_eq!(tried(&book, &offered, &question), due);
        compared += usize::from(due.0 == 0);
    }
    assert!(compared > 1500, "{compared}");
}

/// Any i < j below n, for each n; no other.
#[test]
fn places_of_pairs() {
    for n in 1..=8 {
        let book = bytes(&entered(&vec![0.018; n]));
        let mut pair: Words = [0; 64];
        pair[0] = 3;
        for i in 0..10 {
            for j in 0..10 {
                pair[1..3].copy_from_slice(&[i, j]);
                let right = i < j && j < n as u64;
                let offered = sealed_by(rule_of(&book), pair);
                assert_eq!(preview::refused(&book, &offered), if right { 0 } else { 7 });
                if right {
                    let copy = preview::copy_with(&book, &offered);
                    let changed: Vec<usize> =
                        (0..copy.len()).step_by(BLOCK).filter(|k| copy[*k..k + BLOCK] != book[*k..k + BLOCK]).collect();
                    let place = due_pairs(n).iter().position(|due| *due == (i as usize, j as usize)).expect("due");
                    assert_eq!(changed, [BLOCK * (1 + n + place)]);
                }
            }
        }
    }
}

/// 10 after the offered block's numbers, ahead of 11.
#[test]
fn rooms() {
    let book = bytes(&entered(&[0.018, 0.046]));
    let own = &book[3 * BLOCK..];
    let question = ask(2).bytes_for(&book);
    for room in [0, 1, 512, 4607, 4608, 4609] {
        let mut after = vec![0xee; room];
        let number = preview::answer(&book, own, &question, &mut after);
        assert_eq!(number, if room < 4608 { 10 } else { 0 });
        assert_eq!(preview::answer(&book, &own[1..], &question, &mut vec![0; room]), 1);
        assert_eq!(preview::answer(&book, own, &[], &mut vec![0; room]), if room < 4608 { 10 } else { 11 });
    }
    assert_eq!(tried(&book, own, &Ask::new(10, &[0.5, 0.5]).bytes_for(&book)).0, 12);
}

/// Demand 3: absent solvents struck from book, offered pair and question leave an accepted preview as it was. A pair with an absent
/// solvent is struck with it, so that the plain call is left.
#[test]
fn absent_solvents_do_not_show() {
    let mut rng = Rng::new(127);
    let (mut with_pair, mut without) = ([0; 10], [0; 10]);
    for Preview { book, offered, question } in generated(127, 12_000) {
        let (number, answer) = tried(&book, &offered, &question);
        let long = Sheet { book, question };
        if number != 0 || long.kept().len() == long.feed().len() {
            continue;
        }
        let kept = long.kept();
        let short = long.shorter(&mut rng, &kept);
        let mut words = words_of(&offered);
        let place = |word: u64| kept.iter().position(|k| *k as u64 == word);
        let task = words_of(&long.question)[1] as usize;
        let (number, shorter) = match (place(words[1]), place(words[2])) {
            (Some(i), Some(j)) => {
                words[1..3].copy_from_slice(&[i as u64, j as u64]);
                with_pair[task] += 1;
                tried(&short.book, &sealed_by(rule_of(&short.book), words), &short.question)
            }
            _ => {
                without[task] += 1;
                plain(&short.book, &short.question)
            }
        };
        assert_eq!(number, 0);
        let written = |bytes: &[u8]| -> Vec<Words> {
            let all: Vec<_> = bytes.chunks_exact(BLOCK).map(words_of).collect();
            all[..1 + all[0][12] as usize].to_vec()
        };
        assert_eq!(difference(&written(&answer), &written(&shorter), &kept), None);
    }
    assert!([&with_pair, &without].iter().all(|times| times[1..].iter().all(|t| *t > 30)), "{with_pair:?} {without:?}");
}

/// What the generator of the comparison makes: enough of each of the offered block's numbers.
#[test]
fn generated_previews() {
    let (mut numbers, mut offered_numbers) = ([0; 40], [0; 10]);
    for case in Cases::new(Stage::Preview, 131, false).take(20_000) {
        let number = case.expected().refusal as usize;
        numbers[number] += 1;
        let Case::With { book, lent, .. } = case else { panic!("a preview") };
        if open_book(&book).is_ok() {
            offered_numbers[preview::refused(&book, &lent) as usize] += 1;
        }
    }
    assert!([1, 2, 7, 8, 9].iter().all(|number| offered_numbers[*number] >= 250), "{offered_numbers:?}");
    assert!((1..=29).chain(34..=38).all(|number| numbers[number] > 0), "{numbers:?}");
    assert!(numbers[0] >= 8000, "{numbers:?}");
}
