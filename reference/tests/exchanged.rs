//! Version 3 books: running sums, number 38, and exchanged words.

mod common;

use common::{bytes, call, sealed};
use reference::generate::cases::Cases;
use reference::generate::exchanged::{borders, Exchange, PLACES};
use reference::generate::mass::{ask, entered};
use reference::generate::small::sealed_by;
use reference::generate::Rng;
use reference::sheet::blocks::{bytes_check_right, check_of, rule_of, words_of, Rule, Words, BLOCK};
use reference::sheet::question::{BASIS, BY_MOLES};
use reference::sheet::{self, open_book, program_output, ANSWER_BYTES};
use reference::stage::{Case, Stage};
use reference::strike::{reference, shown, Sheet, Shown, TASKS};

fn third(n: usize) -> Vec<Words> {
    let mut blocks = entered(&vec![0.018; n]);
    blocks[0][1] = 3;
    blocks
}

#[test]
fn borders_have_their_numbers() {
    for (case, number) in borders() {
        assert_eq!(case.expected().refusal, number, "{}", case.line());
    }
}

/// Word k is in the sum 63 − k times, modulo 2^64.
#[test]
fn running_sums_by_hand() {
    let mut words = [0; 64];
    words[..3].copy_from_slice(&[1, 3, 2]);
    assert_eq!(check_of(&words, Rule::Running), 63 + 3 * 62 + 2 * 61);
    assert_eq!(check_of(&words, Rule::Plain), 6);
    assert_eq!(check_of(&[1; 64], Rule::Running), 63 * 64 / 2);
    let mut rng = Rng::new(3);
    for _ in 0..1000 {
        let words: Words = std::array::from_fn(|_| rng.bits());
        let weighed = (0..63).map(|k| words[k].wrapping_mul(63 - k as u64)).fold(0, u64::wrapping_add);
        assert_eq!(check_of(&words, Rule::Running), weighed);
    }
}

/// Running sums where whole blocks begin with kind 1 and version 3, and nowhere else.
#[test]
fn rules_of_books() {
    let book = bytes(&third(2));
    assert_eq!(rule_of(&book), Rule::Running);
    assert_eq!(rule_of(&book[..BLOCK]), Rule::Running);
    for length in [0, 1, BLOCK - 1, BLOCK + 1, book.len() - 1] {
        assert_eq!(rule_of(&book[..length]), Rule::Plain);
    }
    for (at, word) in [(0, 0), (0, 3), (0, 1 << 32 | 1), (1, 0), (1, 1), (1, 2), (1, 4), (1, 1 << 63 | 3)] {
        let mut blocks = third(2);
        blocks[0][at] = word;
        assert_eq!(rule_of(&bytes(&blocks)), Rule::Plain);
    }
}

/// A version 3 book has the answers of the version 2 book with the same words, but for the checks.
#[test]
fn answers_are_those_of_version_2() {
    let mut accepted = [0; 10];
    for case in Cases::new(Stage::Mass, 59, false).take(6000) {
        let Case::Sheet { book, question, room } = case else { panic!("a sheet") };
        if open_book(&book).is_err() || question.len() != BLOCK || !bytes_check_right(&question, Rule::Plain) {
            continue;
        }
        let mut blocks: Vec<Words> = book.chunks_exact(BLOCK).map(words_of).collect();
        if blocks[0][1] != 2 {
            continue;
        }
        blocks[0][1] = 3;
        let running = sealed_by(Rule::Running, words_of(&question));
        let mut answers = [vec![0xee; room], vec![0xee; room]];
        let numbers = [(&book, &question), (&bytes(&blocks), &running)].map(|(book, question)| {
            sheet::answer(book, question, &mut answers[usize::from(rule_of(book) == Rule::Running)])
        });
        assert_eq!(numbers[0], numbers[1]);
        let [second, third] = &answers;
        if numbers[0] != 0 {
            assert_eq!(second, third);
            continue;
        }
        accepted[words_of(&question)[1] as usize] += 1;
        let written = BLOCK * (1 + words_of(&second[..BLOCK])[12] as usize);
        assert_eq!(second[written..], third[written..]);
        for (a, b) in second[..written].chunks(BLOCK).zip(third[..written].chunks(BLOCK)) {
            assert_eq!(a[..BLOCK - 8], b[..BLOCK - 8]);
            assert!(bytes_check_right(a, Rule::Plain) && bytes_check_right(b, Rule::Running));
        }
    }
    assert!(accepted[1..].iter().all(|times| *times > 50), "{accepted:?}");
}

/// Every exchange of unequal neighbours in every block of a book is refused by it; a plain sum lets those pass that it can't see.
#[test]
fn every_exchange_is_refused() {
    let mut rng = Rng::new(61);
    let mut blocks = third(3);
    // Anything where nothing is read.
    for (at, words) in blocks.iter_mut().enumerate() {
        let from = [4, 46, 46, 46, 19, 19, 19][at];
        words[from..63].iter_mut().for_each(|word| *word = rng.bits());
    }
    let question = ask(2, &[0.3, 0.3, 0.4]).word(BASIS, BY_MOLES);
    let mut passed = 0;
    for version in [2, 3] {
        blocks[0][1] = version;
        let book = bytes(&blocks);
        assert!(call(&book, question).is_ok());
        for block in 0..blocks.len() {
            for place in 0..PLACES {
                let mut words = words_of(&book[block * BLOCK..][..BLOCK]);
                if words[place] == words[place + 1] {
                    continue;
                }
                words.swap(place, place + 1);
                let mut changed = book.clone();
                changed[block * BLOCK..][..BLOCK].copy_from_slice(&reference::sheet::blocks::bytes_of(&words));
                let refused = open_book(&changed).err();
                if version == 3 {
                    assert!(matches!(refused, Some(2 | 3 | 38)), "{block} {place} {refused:?}");
                } else if (block, place) != (0, 1) {
                    // Version 2 of three solvents turns into version 3 of two there.
                    assert_ne!(refused, Some(2));
                    passed += usize::from(refused.is_none());
                }
            }
        }
    }
    assert!(passed > 200, "{passed}");
}

/// Task 0 in the refusal block of 38, which is summed plainly; running sums with every other number where block 0 has version 3.
#[test]
fn refusal_blocks() {
    let good = ask(2, &[0.3, 0.7]);
    let words = |book: &[u8], question: &[u8], rule: Rule| {
        let out = program_output(book, question);
        assert_eq!(out.len(), BLOCK);
        assert!(bytes_check_right(&out, rule));
        let words = words_of(&out);
        assert!(words[3..63].iter().all(|word| *word == 0));
        // By the other rule it is wrong: kind 9 is counted 63 times.
        assert_ne!(check_of(&words, Rule::Plain), check_of(&words, Rule::Running));
        [words[0], words[1], words[2]]
    };
    let with = |block: usize, at: usize, word: u64| {
        let mut blocks = third(2);
        blocks[block][at] = word;
        bytes(&blocks)
    };
    let right = bytes(&third(2));
    let asked = |ask: reference::generate::small::Ask| sealed_by(Rule::Running, ask.0);
    for (book, rule, number) in [
        (right[..right.len() - 1].to_vec(), Rule::Plain, 1),
        (Vec::new(), Rule::Plain, 1),
        (with(0, 1, 4), Rule::Plain, 38),
        (with(0, 1, 0), Rule::Plain, 38),
        (with(0, 0, 2), Rule::Plain, 3),
        (with(0, 2, 3), Rule::Running, 3),
        (with(1, 2, 0), Rule::Running, 4),
        (with(1, 45, 0), Rule::Running, 35),
        ([&right[..], &[0; 600 * BLOCK]].concat(), Rule::Running, 3),
    ] {
        assert_eq!(words(&book, &asked(good), rule), [9, 0, number]);
    }
    let mut wrong = right.clone();
    wrong[3 * BLOCK + 504] ^= 1;
    assert_eq!(words(&wrong, &asked(good), Rule::Running), [9, 0, 2]);
    assert_eq!(words(&right, &sealed(good.0), Rule::Running), [9, 0, 11]);
    assert_eq!(words(&right, &[0; 513], Rule::Running), [9, 0, 11]);
    assert_eq!(words(&right, &asked(ask(12, &[0.3, 0.7])), Rule::Running), [9, 0, 12]);
    assert_eq!(words(&right, &asked(good.word(BASIS, 2)), Rule::Running), [9, 2, 36]);
    assert_eq!(words(&right, &asked(good.at(273.15)), Rule::Running), [9, 2, 22]);
}

/// Trial blocks and the answer block have running sums.
#[test]
fn answers_have_running_sums() {
    let book = bytes(&third(2));
    let out = program_output(&book, &ask(6, &[0.3, 0.7]).bytes_for(&book));
    assert_eq!(out.len(), 3 * BLOCK);
    assert!(out.chunks(BLOCK).all(|block| bytes_check_right(block, Rule::Running)));
}

/// What the generator of the comparison makes.
#[test]
fn generated_sheets() {
    let mut numbers = [0; 39];
    let mut cases = Cases::new(Stage::Exchanged, 67, false);
    let (mut third, mut accepted, mut places, mut heads) = (0, [0; 10], [0; PLACES], 0);
    for _ in 0..40_000 {
        let case = cases.draw().1;
        let number = case.expected().refusal;
        numbers[number as usize] += 1;
        match cases.exchange() {
            Some(Exchange::Book { block, place, .. }) => {
                assert!(matches!(number, 2 | 3 | 38), "{number}");
                places[place] += 1;
                heads += usize::from(block == 0 && place < 2);
            }
            Some(Exchange::Question { .. }) => assert!(matches!(number, 4..=11 | 35), "{number}"),
            None => {}
        }
        let Case::Sheet { book, question, .. } = &case else { panic!("a sheet") };
        if rule_of(book) == Rule::Running {
            third += 1;
            if number == 0 {
                accepted[words_of(question)[1] as usize] += 1;
            }
        }
    }
    let all: usize = accepted.iter().sum();
    assert!((1..=30).chain(34..=36).chain([38]).all(|number| numbers[number] > 0), "{numbers:?}");
    assert!(numbers[38] >= 400 && heads >= 400, "{} {heads}", numbers[38]);
    assert!(places.iter().all(|times| *times >= 40), "{places:?}");
    assert!(third >= 34_000 && all >= 15_000 && accepted[1..].iter().all(|times| *times > 300), "{third} {accepted:?}");
}

/// Demand 3 on the comparison's sheets: the shorter sheet is of version 3 too.
#[test]
fn absent_solvents_do_not_show() {
    let mut rng = Rng::new(71);
    let mut struck = [0; 10];
    for case in Cases::new(Stage::Exchanged, 71, false).take(12_000) {
        let Case::Sheet { book, question, .. } = case else { panic!("a sheet") };
        let sheet = Sheet { book, question };
        let mut answer = [0; ANSWER_BYTES];
        let refused = reference(&sheet.book, &sheet.question, &mut answer) != 0;
        if refused || rule_of(&sheet.book) == Rule::Plain || sheet.kept().len() == sheet.feed().len() {
            continue;
        }
        let kept = sheet.kept();
        assert_eq!(rule_of(&sheet.shorter(&mut rng, &kept).book), Rule::Running);
        assert_eq!(shown(&mut rng, reference, &sheet), Shown::Equal);
        struck[words_of(&sheet.question)[1] as usize] += 1;
    }
    assert!(TASKS.iter().all(|task| struck[*task as usize] > 20), "{struck:?}");
}
