//! Pooled drums on the reference: samples, the borders of 31, 32 and 36, and the laws of pools.

mod common;

use common::{bytes, put, Ask};
use reference::generate::cases::Cases;
use reference::generate::mass::entered;
use reference::generate::pooled::{ask, borders, drum};
use reference::generate::small::{blocks, sealed_by};
use reference::generate::Rng;
use reference::sheet::blocks::{rule_of, words_of, BLOCK};
use reference::sheet::pool::{self, bytes_of, drums_of, feed, pool, total, Drum, MOST};
use reference::sheet::question::{Question, BASIS, BY_MASS, FRACTIONS, TASK};
use reference::sheet::{self, open_book, ANSWER_BYTES};
use reference::stage::{Case, Stage};
use reference::strike::{difference, Sheet};

const FULL: u64 = MOST as u64;

/// The number and every byte of the slice.
fn called(book: &[u8], question: &[u8], drums: &[u8]) -> (u32, Vec<u8>) {
    let mut after = vec![0xee; ANSWER_BYTES + 5];
    let number = pool::answer(book, question, drums, &mut after);
    (number, after)
}

/// The plain call.
fn plain(book: &[u8], question: &[u8]) -> (u32, Vec<u8>) {
    let mut after = vec![0xee; ANSWER_BYTES + 5];
    let number = sheet::answer(book, question, &mut after);
    (number, after)
}

struct Pooled {
    book: Vec<u8>,
    question: Vec<u8>,
    drums: Vec<u8>,
}

impl Pooled {
    fn called(&self) -> (u32, Vec<u8>) {
        called(&self.book, &self.question, &self.drums)
    }

    fn with(&self, drums: &[Drum]) -> (u32, Vec<u8>) {
        called(&self.book, &self.question, &bytes_of(drums))
    }

    /// n, where 1 to 12, 31, 32 and 36 pass.
    fn asked(&self) -> Option<usize> {
        let book = open_book(&self.book).ok()?;
        let question = Question::read(&self.question, book.rule).ok()?;
        let n = book.solvents.len();
        ((1..=9).contains(&question.task()) && question.by_moles() && pool(&self.drums, n).is_ok()).then_some(n)
    }

    fn task(&self) -> usize {
        words_of(&self.question)[TASK] as usize
    }
}

fn generated(seed: u64, count: usize) -> impl Iterator<Item = Pooled> {
    Cases::new(Stage::Pooled, seed, false).take(count).map(|case| match case {
        Case::With { book, question, lent: drums, .. } => Pooled { book, question, drums },
        _ => panic!("a sheet with drums"),
    })
}

fn two() -> Vec<u8> {
    bytes(&entered(&[0.018, 0.046]))
}

fn number(ask: Ask, drums: &[u8]) -> u32 {
    let book = two();
    called(&book, &ask.bytes_for(&book), drums).0
}

/// Two drums pool to the feed of (d) of docs/FORMAT.md, whose answer is its bytes.
#[test]
fn the_samples() {
    let book = bytes(&blocks(&[4e6, 1e6], [0.0, 0.0]));
    let halves = plain(&book, &Ask::new(8, &[0.5, 0.5]).k(&[2.0, 0.5]).bytes());
    assert_eq!(halves.0, 0);
    let question = Ask::new(8, &[2.0, 2.0]).k(&[2.0, 0.5]).bytes();
    let of = |drums: &[Drum]| called(&book, &question, &bytes_of(drums));
    assert_eq!(plain(&book, &question).0, 18);
    assert_eq!(of(&[drum(&[3, 1, 7]), drum(&[1, 3])]), halves);
    assert_eq!(of(&[drum(&[4, 4])]), halves);
    assert_eq!(of(&[drum(&[1 << 52, 1 << 52])]), halves);
    assert_eq!(of(&[]).0, 31);
    assert_eq!(of(&[drum(&[])]).0, 32);
    assert_eq!(of(&[drum(&[u64::MAX]), drum(&[2])]).0, 32);
}

#[test]
fn borders_have_their_numbers() {
    for (case, number) in borders() {
        assert_eq!(case.expected().refusal, number, "{}", case.line());
    }
}

/// 31: every length up to 70 drums.
#[test]
fn lengths_of_drums() {
    let full = bytes_of(&[drum(&[1, 2]); 70]);
    for length in 0..=full.len() {
        let right = (64..=4096).contains(&length) && length % 64 == 0;
        assert_eq!(pool(&full[..length], 2).err(), if right { None } else { Some(31) });
    }
    assert_eq!(number(ask(8), &full[..4096]), 0);
    assert_eq!(number(ask(8), &full[..4160]), 31);
    assert_eq!(number(ask(8), &full[..4095]), 31);
}

/// 32: totals beside 1 and 2^53, whatever stands behind n; and those that wrap.
#[test]
fn totals_of_drums() {
    for n in 1..=8 {
        for amount in [0, 1, FULL - 1, FULL, FULL + 1, u64::MAX] {
            for place in 0..n {
                let mut counts = [0; 8];
                counts[place] = amount;
                counts[n..].fill(u64::MAX);
                let right = (1..=FULL).contains(&amount);
                assert_eq!(pool(&bytes_of(&[counts]), n).err(), if right { None } else { Some(32) });
            }
        }
    }
    for small in [0, 1, 5, FULL] {
        let wrapping = [drum(&[u64::MAX]), drum(&[0, 1 + small])];
        assert_eq!(total(&bytes_of(&wrapping), 2), (1 << 64) + u128::from(small));
        assert_eq!(number(ask(2), &bytes_of(&wrapping)), 32);
        let mut many = [drum(&[1 << 58]); 64];
        many[7][1] = small;
        assert_eq!(number(ask(2), &bytes_of(&many)), 32);
    }
    // The most that 64 drums can hold.
    assert_eq!(total(&bytes_of(&[[u64::MAX; 8]; 64]), 8), 512 * u128::from(u64::MAX));
    assert_eq!(number(ask(2), &bytes_of(&[[u64::MAX; 8]; 64])), 32);
}

/// 36 after 31 and 32, ahead of 13; a version that has molar masses doesn't help.
#[test]
fn no_drums_by_mass() {
    let right = bytes_of(&[drum(&[5, 6])]);
    for task in 1..=9 {
        for word in [1, 2, 1 << 63, u64::MAX] {
            let by_mass = ask(task).word(BASIS, word);
            assert_eq!(number(by_mass, &right), 36);
            assert_eq!(number(by_mass.at(-1.0).under(-1.0), &right), 36);
            assert_eq!(number(by_mass, &bytes_of(&[drum(&[])])), 32);
            assert_eq!(number(by_mass, &[]), 31);
        }
        assert_eq!(number(ask(task), &right), 0);
    }
    assert_eq!(number(ask(10).word(BASIS, BY_MASS), &[]), 12);
}

/// Each count over the total, one division; a count of 1 in 2^53 is not lost.
#[test]
fn the_feed_by_hand() {
    assert_eq!(feed(&[3, 5, 0]), Ok(vec![3.0 / 8.0, 5.0 / 8.0, 0.0]));
    assert_eq!(feed(&[7, 1, 1]), Ok(vec![7.0 / 9.0, 1.0 / 9.0, 1.0 / 9.0]));
    assert_eq!(feed(&[FULL]), Ok(vec![1.0]));
    let part = 1.0 / FULL as f64;
    assert_eq!(feed(&[1, FULL - 1]), Ok(vec![part, 1.0 - part]));
    assert!(part > 0.0 && 1.0 - part < 1.0);
}

/// Every feed of a pool passes 15, 16 and 18, and is 0 exactly where no drum holds the solvent.
#[test]
fn feeds_of_pools() {
    let mut rng = Rng::new(61);
    for _ in 0..20_000 {
        let n = rng.between(1, 8);
        let most = FULL >> rng.between(3, 52);
        let counts: Vec<u64> = (0..n).map(|_| if rng.one_in(3) { 0 } else { rng.bits() % (most + 1) }).collect();
        if counts.iter().all(|count| *count == 0) {
            continue;
        }
        let x = feed(&counts).expect("a total from 1 to 2^53");
        assert!(x.iter().zip(&counts).all(|(x, count)| (*x > 0.0) == (*count > 0) && *x <= 1.0));
        assert!((x.iter().sum::<f64>() - 1.0).abs() <= 1e-10);
    }
}

/// The total over solvents of the pool's counts is that of all drums; a pool as one drum, and the drums in any order, answer alike.
#[test]
fn one_drum_and_any_order() {
    let mut rng = Rng::new(67);
    let mut compared = 0;
    for sheet in generated(67, 12_000) {
        let Some(n) = sheet.asked() else { continue };
        let counts = pool(&sheet.drums, n).expect("asked");
        assert_eq!(counts.iter().map(|count| u128::from(*count)).sum::<u128>(), total(&sheet.drums, n));
        let due = sheet.called();
        let one = drum(&counts);
        assert_eq!(pool(&bytes_of(&[one]), n), Ok(counts));
        assert_eq!(sheet.with(&[one]), due);
        let mut drums: Vec<Drum> = drums_of(&sheet.drums).collect();
        for last in (1..drums.len()).rev() {
            drums.swap(last, rng.below(last + 1));
        }
        drums.iter_mut().for_each(|drum| drum[n..].fill_with(|| rng.bits()));
        assert_eq!(sheet.with(&drums), due);
        compared += usize::from(due.0 == 0);
    }
    assert!(compared > 5000, "{compared}");
}

/// A pooled call is the plain call on the question with the pool's fractions, in every byte and number from 13 on.
#[test]
fn pooled_equals_plain() {
    let (mut accepted, mut refused) = ([0; 10], 0);
    for sheet in generated(71, 20_000) {
        let Some(n) = sheet.asked() else { continue };
        let x = feed(&pool(&sheet.drums, n).expect("asked")).expect("a pool's feed");
        let mut words = words_of(&sheet.question);
        put(&mut words, FRACTIONS, &x);
        let due = plain(&sheet.book, &sealed_by(rule_of(&sheet.book), words));
        assert_eq!(sheet.called(), due);
        if due.0 == 0 {
            accepted[sheet.task()] += 1;
        } else {
            assert!((13..=30).contains(&due.0) || due.0 == 34);
            refused += 1;
        }
    }
    assert!(accepted[1..].iter().all(|times| *times > 300) && refused > 1000, "{accepted:?} {refused}");
}

/// Words 4 to 11 are not read, but stand under the check.
#[test]
fn the_question_keeps_its_check() {
    let mut rng = Rng::new(73);
    for sheet in generated(73, 3000).filter(|sheet| sheet.asked().is_some()) {
        let due = sheet.called();
        let mut words = words_of(&sheet.question);
        words[FRACTIONS..FRACTIONS + 8].fill_with(|| rng.bits());
        let question = sealed_by(rule_of(&sheet.book), words);
        assert_eq!(called(&sheet.book, &question, &sheet.drums), due);
        let mut wrong = question;
        // A lowest byte: running sums lose the highest bits of a word of even weight.
        wrong[8 * (FRACTIONS + rng.below(8))] ^= 1 << rng.below(8);
        assert_eq!(called(&sheet.book, &wrong, &sheet.drums).0, 11);
    }
}

/// Demand 3: solvents that are in no drum, struck with their counts, leave an accepted answer as it was.
#[test]
fn solvents_in_no_drum_do_not_show() {
    let mut rng = Rng::new(79);
    let mut struck = [0; 10];
    for sheet in generated(79, 16_000) {
        let Some(n) = sheet.asked() else { continue };
        let counts = pool(&sheet.drums, n).expect("asked");
        let kept: Vec<usize> = (0..n).filter(|i| counts[*i] > 0).collect();
        let (number, answer) = sheet.called();
        if number != 0 || kept.len() == n {
            continue;
        }
        let short = Sheet { book: sheet.book.clone(), question: sheet.question.clone() }.shorter(&mut rng, &kept);
        let column = |drum: Drum| std::array::from_fn(|i| kept.get(i).map_or_else(|| rng.clone().bits(), |k| drum[*k]));
        let drums: Vec<Drum> = drums_of(&sheet.drums).map(column).collect();
        let (number, shorter) = called(&short.book, &short.question, &bytes_of(&drums));
        assert_eq!(number, 0);
        let blocks = |bytes: &[u8]| -> Vec<_> {
            let all: Vec<_> = bytes.chunks_exact(BLOCK).map(words_of).collect();
            all[..1 + all[0][12] as usize].to_vec()
        };
        assert_eq!(difference(&blocks(&answer), &blocks(&shorter), &kept), None);
        struck[sheet.task()] += 1;
    }
    assert!(struck[1..].iter().all(|times| *times > 100), "{struck:?}");
}

/// What the generator of the comparison makes: every number, and enough of each kind.
#[test]
fn generated_sheets() {
    let mut numbers = [0; 39];
    let (mut accepted, mut absent) = ([0; 10], 0);
    for case in Cases::new(Stage::Pooled, 83, false).take(40_000) {
        let number = case.expected().refusal;
        numbers[number as usize] += 1;
        let Case::With { book, question, lent: drums, .. } = case else { panic!("a sheet with drums") };
        if number == 0 {
            accepted[words_of(&question)[TASK] as usize] += 1;
            let n = words_of(&book[..BLOCK])[2] as usize;
            absent += usize::from(pool(&drums, n).expect("accepted").contains(&0));
        }
    }
    let all: usize = accepted.iter().sum();
    let arise = (1..=14).chain([15, 17]).chain(19..=32).chain(34..=38);
    assert!(arise.clone().all(|number| numbers[number] > 0), "{numbers:?}");
    assert!(numbers[16] == 0 && numbers[33] == 0, "{numbers:?}");
    assert!(numbers[31] >= 1000 && numbers[32] >= 1000 && numbers[36] >= 800, "{numbers:?}");
    assert!(all >= 21_000 && 2 * absent >= all, "{all} {absent}");
    assert!(accepted[1..].iter().all(|times| *times > 500), "{accepted:?}");
}
