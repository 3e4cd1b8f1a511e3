//! Feeds by mass: the conversion, versions, numbers 34, 35 and 36, and demand 3 on them.

mod common;

use common::{answer, bytes, call, floats, sealed, Ask};
use reference::generate::absent::Base;
use reference::generate::cases::Cases;
use reference::generate::mass::{ask, borders, entered, least_mass};
use reference::generate::Rng;
use reference::sheet::blocks::{check_right, words_of, Rule, Words, BLOCK};
use reference::sheet::book::MOLAR_MASS;
use reference::sheet::question::{mole_feed, BASIS, BY_MASS, BY_MOLES, FRACTIONS};
use reference::sheet::{self, open_book, program_output, ANSWER_BYTES};
use reference::stage::{Case, Stage};
use reference::strike::{reference, shown, Sheet, Shown, TASKS};

const TINY: f64 = f64::from_bits(1);

fn book(molar_masses: &[f64]) -> Vec<u8> {
    bytes(&entered(molar_masses))
}

/// The number and every byte of the slice.
fn called(book: &[u8], question: &[u8]) -> (u32, Vec<u8>) {
    let mut after = vec![0xee; ANSWER_BYTES + 5];
    let number = sheet::answer(book, question, &mut after);
    (number, after)
}

/// Generated sheets of version 2 books: book, question.
fn generated(seed: u64, count: usize) -> impl Iterator<Item = (Vec<u8>, Vec<u8>)> {
    Cases::new(Stage::Mass, seed, false).take(count).map(|case| match case {
        Case::Sheet { book, question, .. } => (book, question),
        _ => panic!("a sheet"),
    })
}

/// With other words, and the check made right.
fn changed(block: &[u8], change: impl FnOnce(&mut Words)) -> Vec<u8> {
    let mut words = words_of(block);
    change(&mut words);
    sealed(words)
}

fn of_version(book: &[u8], version: u64) -> Vec<u8> {
    let mut blocks: Vec<Words> = book.chunks_exact(BLOCK).map(words_of).collect();
    blocks[0][1] = version;
    bytes(&blocks)
}

/// Samples (n), (o) and (p) of docs/FORMAT.md.
#[test]
fn n_o_p_the_samples() {
    let halves = || Ask::new(8, &[0.5, 0.5]).k(&[2.0, 0.5]);
    let by_mass = || ask(8, &[0.5, 0.5]).k(&[2.0, 0.5]);
    let in_moles = of_version(&book(&[0.5, 0.5]), 1);
    assert_eq!(call(&book(&[0.5, 0.5]), by_mass()), call(&in_moles, halves()));
    assert_eq!(call(&in_moles, by_mass()), Err(36));
    assert_eq!(call(&book(&[0.5, 0.0]), halves()), Err(35));
}

#[test]
fn borders_have_their_numbers() {
    for (case, number) in borders() {
        assert_eq!(case.expected().refusal, number, "{}", case.line());
    }
}

/// One division each, the sum in index order, one division more.
#[test]
fn the_conversion_by_hand() {
    let (w, m) = ([0.3, 0.5, 0.2], [0.018015268, 0.04606844, 0.0921384]);
    let n = [0.3 / 0.018015268, 0.5 / 0.04606844, 0.2 / 0.0921384];
    let sum = n[0] + n[1] + n[2];
    assert_eq!(mole_feed(&w, &m), Ok(vec![n[0] / sum, n[1] / sum, n[2] / sum]));
    // Half ethanol, half water by mass: 28 % ethanol in moles.
    let x = mole_feed(&[0.5, 0.5], &[0.04606844, 0.018015268]).expect("a feed");
    assert!((x[0] - 0.2811).abs() < 1e-4 && (x[0] + x[1] - 1.0).abs() < 1e-15);
    // A single solvent is 1 whatever its molar mass.
    assert_eq!(mole_feed(&[1.0], &[f64::MAX]), Ok(vec![1.0]));
    assert_eq!(mole_feed(&[1.0], &[least_mass(1.0)]), Ok(vec![1.0]));
}

/// Each zero keeps its sign, and a trace may become +0.
#[test]
fn zeros_of_the_conversion() {
    let bits =
        |w: &[f64], m: &[f64]| -> Vec<u64> { mole_feed(w, m).expect("a feed").iter().map(|v| v.to_bits()).collect() };
    let one = 1.0f64.to_bits();
    assert_eq!(bits(&[0.0, 1.0, -0.0], &[TINY, 0.02, TINY]), [0, one, 1 << 63]);
    assert_eq!(bits(&[0.0, 1.0, -0.0], &[f64::MAX; 3]), [0, one, 1 << 63]);
    assert_eq!(bits(&[TINY, 1.0], &[2.0, 0.02]), [0, one]);
}

/// Compositions of the answer are mole fractions; a mass fraction of −0 is shown as −0.
#[test]
fn answers_in_mole_fractions() {
    let x = mole_feed(&[0.3, 0.0, 0.7], &[0.018, 0.03, 0.046]).expect("a feed");
    for (task, at) in [(2, 14), (3, 22)] {
        let words = answer(&book(&[0.018, 0.03, 0.046]), ask(task, &[0.3, -0.0, 0.7]));
        assert_eq!(floats(&words, at, 3), x);
        assert_eq!(words[at + 1], 1 << 63);
    }
}

/// A question by mass is the question by moles with the converted fractions, in every byte and every number from 19 on.
#[test]
fn mass_equals_converted_moles() {
    let mut accepted = [0; 10];
    let mut refused = 0;
    for (book, question) in generated(31, 20_000) {
        let Ok(opened) = open_book(&book) else { continue };
        let Some(molar_masses) = &opened.molar_masses else { continue };
        if question.len() != BLOCK
            || !check_right(&words_of(&question), Rule::Plain)
            || words_of(&question)[BASIS] != BY_MASS
        {
            continue;
        }
        let words = words_of(&question);
        let n = opened.solvents.len();
        let w: Vec<f64> = words[FRACTIONS..FRACTIONS + n].iter().map(|word| f64::from_bits(*word)).collect();
        let (number, after) = called(&book, &question);
        if (1..=18).contains(&number) {
            // Put to the fractions as they are, whatever they are of; but those inside a calculation.
            let as_moles = called(&book, &changed(&question, |words| words[BASIS] = BY_MOLES)).0;
            if as_moles == number {
                continue;
            }
        }
        let Ok(x) = mole_feed(&w, molar_masses) else {
            assert_eq!(number, 34);
            continue;
        };
        let of_moles = changed(&question, |words| {
            words[BASIS] = BY_MOLES;
            for (word, v) in words[FRACTIONS..].iter_mut().zip(&x) {
                *word = v.to_bits();
            }
        });
        assert_eq!(called(&book, &of_moles), (number, after));
        if number == 0 {
            accepted[words[1] as usize] += 1;
        } else {
            refused += 1;
        }
    }
    assert!(accepted[1..].iter().all(|times| *times > 300) && refused > 1000, "{accepted:?} {refused}");
}

/// A question by moles has the same answer on a version 2 book as on that of version 1, whatever word 45 holds there.
#[test]
fn moles_are_as_before() {
    let mut rng = Rng::new(37);
    let mut accepted = 0;
    for case in Cases::new(Stage::Sheet, 37, false).take(6000) {
        let Case::Sheet { book, question, .. } = case else { panic!("a sheet") };
        // Of version 1.
        let Some(n) = open_book(&book).ok().filter(|book| book.molar_masses.is_none()).map(|book| book.solvents.len())
        else {
            continue;
        };
        let with = |version: u64, mass: &mut dyn FnMut() -> u64| {
            let mut all = of_version(&book, version);
            for i in 1..=n {
                let block = changed(&book[i * BLOCK..(i + 1) * BLOCK], |words| words[MOLAR_MASS] = mass());
                all[i * BLOCK..(i + 1) * BLOCK].copy_from_slice(&block);
            }
            all
        };
        let due = called(&book, &question);
        accepted += usize::from(due.0 == 0);
        assert_eq!(called(&with(2, &mut || rng.range(0.01, 9.0).to_bits()), &question), due);
        assert_eq!(called(&with(1, &mut || rng.bits()), &question), due);
    }
    assert!(accepted > 2000);
}

/// 35: every float that is not finite and positive, in every call on a version 2 book.
#[test]
fn molar_masses() {
    for task in 1..=9 {
        for basis in [BY_MOLES, BY_MASS, 2] {
            for mass in [0.0, -0.0, -TINY, -1.0, f64::NAN, f64::INFINITY, f64::NEG_INFINITY] {
                let ask = ask(task, &[0.3, 0.7]).word(BASIS, basis);
                assert_eq!(call(&book(&[0.018, mass]), ask), Err(35));
                assert_eq!(call(&of_version(&book(&[0.018, mass]), 3), ask), Err(35));
                assert_eq!(call(&of_version(&book(&[0.018, mass]), 4), ask), Err(38));
                let one = call(&of_version(&book(&[0.018, mass]), 1), ask);
                assert_eq!(one.is_ok(), basis == BY_MOLES);
            }
        }
    }
    for mass in [TINY, f64::MIN_POSITIVE, f64::MAX] {
        assert!(call(&book(&[0.018, mass]), ask(2, &[1.0, 0.0])).is_ok());
    }
    // The slice's room and the question's block come later.
    let no_mass = book(&[f64::NAN]);
    assert_eq!(sheet::answer(&no_mass, &[], &mut []), 35);
}

/// 35 stands after 5 and ahead of 6 to 9.
#[test]
fn the_place_of_35() {
    let mut all = entered(&[0.0, 0.046]);
    let number = |all: &[Words]| call(&bytes(all), ask(2, &[0.3, 0.7])).expect_err("a number");
    all[3][12] = 1;
    assert_eq!(number(&all), 35, "9");
    all[3][3] = f64::NAN.to_bits();
    assert_eq!(number(&all), 35, "8");
    all[3][0] = 4;
    assert_eq!(number(&all), 35, "7");
    all[2][2] = all[1][2];
    assert_eq!(number(&all), 35, "6");
    // In another solvent's block than the molar mass.
    all[2][26] = 0;
    assert_eq!(number(&all), 5);
    all[2][28] = 9;
    assert_eq!(number(&all), 4);
    all[0][2] = 3;
    assert_eq!(number(&all), 3);
    all[0][1] = 4;
    assert_eq!(number(&all), 38);
}

/// 36: word 27 is 0, or 1 where there are molar masses; after 12, ahead of 13.
#[test]
fn word_27() {
    let two = book(&[0.018, 0.046]);
    for task in 1..=9 {
        for basis in [0, 1, 2, 1 << 32, 1 << 63, 1 << 63 | 1, 1.0f64.to_bits(), u64::MAX] {
            let ask = ask(task, &[0.3, 0.7]).word(BASIS, basis);
            let refused = |basis_right: bool| if basis_right { None } else { Some(36) };
            assert_eq!(call(&two, ask).err(), refused(basis <= 1), "{task} {basis}");
            assert_eq!(call(&of_version(&two, 1), ask).err(), refused(basis == 0), "{task} {basis}");
        }
        let bad = ask(task, &[f64::NAN, -1.0]).at(-1.0).under(-1.0).limits(u64::MAX);
        assert_eq!(call(&two, bad.word(BASIS, 2)), Err(36));
        assert_ne!(call(&two, bad), Err(36));
    }
    assert_eq!(call(&two, ask(10, &[0.3, 0.7]).word(BASIS, 2)), Err(12));
    assert_eq!(sheet::answer(&two, &[0; 512], &mut [0; ANSWER_BYTES]), 11);
    assert_eq!(sheet::answer(&two, &ask(2, &[1.0]).word(BASIS, 2).bytes(), &mut [0; 9]), 10);
}

/// 34: after 18 (17 in tasks 8 and 9), ahead of 19 to 21.
#[test]
fn the_place_of_34() {
    let tiny = book(&[TINY, 0.046]);
    for task in 1..=9 {
        let good = ask(task, &[0.3, 0.7]);
        assert_eq!(call(&tiny, good), Err(34));
        assert_eq!(call(&tiny, good.word(BASIS, BY_MOLES)).err(), None);
        assert_eq!(call(&tiny, good.float(13, 1.0).limits(0)), Err(34));
        assert_eq!(call(&tiny, good.limits(1_000_001)), Err(34));
        assert_eq!(call(&tiny, ask(task, &[0.3, 0.7000000002])), Err(18));
        assert_eq!(call(&tiny, ask(task, &[1.3, -0.3])), Err(16));
        assert_eq!(call(&tiny, ask(task, &[0.3, f64::INFINITY])), Err(15));
    }
    for task in [8, 9] {
        assert_eq!(call(&tiny, ask(task, &[0.3, 0.7]).k(&[2.0, -0.5])), Err(17));
        assert_eq!(call(&tiny, ask(task, &[0.3, 0.7]).k(&[2.0, f64::NAN])), Err(15));
    }
    // An absent solvent's molar mass makes no overflow.
    assert!(call(&tiny, ask(2, &[0.0, 1.0])).is_ok());
    assert!(call(&tiny, ask(2, &[-0.0, 1.0])).is_ok());
}

/// Moles that overflow are the one way to 34: the smallest sum of moles is not 0.
#[test]
fn no_feed_vanishes() {
    for n in 1..=8 {
        let w = vec![1.0 / n as f64; n];
        assert!(mole_feed(&w, &vec![f64::MAX; n]).is_ok());
    }
}

/// 15, 16 and 18 are put to the mass fractions, and pass the mole feed that comes of them.
#[test]
fn sums_of_mass_fractions() {
    let two = book(&[0.018, 0.046]);
    for (rest, passes) in [(0.7 + 9e-11, true), (0.7 - 9e-11, true), (0.7 + 2e-10, false), (0.7 - 2e-10, false)] {
        for task in [1, 2, 8] {
            assert_eq!(call(&two, ask(task, &[0.3, rest])).err(), if passes { None } else { Some(18) });
        }
    }
}

/// Task 0 in the refusal block of 35, the question's in those of 34 and 36.
#[test]
fn refusal_blocks() {
    let words = |molar_masses: &[f64], ask: Ask| {
        let out = program_output(&book(molar_masses), &ask.bytes());
        assert_eq!(out.len(), BLOCK);
        let words = words_of(&out);
        assert!(check_right(&words, Rule::Plain) && words[3..63].iter().all(|word| *word == 0));
        [words[0], words[1], words[2]]
    };
    for task in 1..=9 {
        let good = ask(task, &[0.3, 0.7]);
        assert_eq!(words(&[0.0, 0.046], good), [9, 0, 35]);
        assert_eq!(words(&[TINY, 0.046], good), [9, task, 34]);
        assert_eq!(words(&[0.018, 0.046], good.word(BASIS, 2)), [9, task, 36]);
    }
}

/// What the generator of the comparison makes: every number, and enough of each kind.
#[test]
fn generated_sheets() {
    let mut numbers = [0; 39];
    let (mut by_mass, mut accepted, mut absent) = (0, [0; 10], 0);
    for case in Cases::new(Stage::Mass, 41, false).take(40_000) {
        let found = case.expected();
        numbers[found.refusal as usize] += 1;
        let Case::Sheet { book, question, .. } = &case else { panic!("a sheet") };
        let sheet = Sheet { book: book.clone(), question: question.clone() };
        if question.len() != BLOCK || book.len() < BLOCK || words_of(&book[..BLOCK])[1] != 2 || !sheet.by_mass() {
            continue;
        }
        by_mass += 1;
        if found.refusal == 0 {
            accepted[words_of(question)[1] as usize] += 1;
            absent += usize::from(sheet.kept().len() < sheet.feed().len());
        }
    }
    let all: usize = accepted.iter().sum();
    assert!((1..=30).chain(34..=36).all(|number| numbers[number] > 0), "{numbers:?}");
    assert!((34..=36).all(|number| numbers[number] >= 500), "{numbers:?}");
    assert!(by_mass >= 34_000 && all >= 20_000 && 2 * absent >= all, "{by_mass} {all} {absent}");
    assert!(accepted[1..].iter().all(|times| *times > 500), "{accepted:?}");
}

/// Demand 3 on the comparison's sheets by mass: a solvent of mass fraction ±0 is absent.
#[test]
fn absent_solvents_do_not_show() {
    let mut rng = Rng::new(43);
    let mut struck = [0; 10];
    for (book, question) in generated(43, 12_000) {
        let sheet = Sheet { book, question };
        if called(&sheet.book, &sheet.question).0 != 0 || !sheet.by_mass() || sheet.kept().len() == sheet.feed().len() {
            continue;
        }
        let task = words_of(&sheet.question)[1];
        if TASKS.contains(&task) {
            assert_eq!(shown(&mut rng, reference, &sheet), Shown::Equal);
            struck[task as usize] += 1;
        }
    }
    assert!(TASKS.iter().all(|task| struck[*task as usize] > 50), "{struck:?}");
}

/// And on those with absent data at the ends of the floats: half of them are by mass.
#[test]
fn extreme_absent_solvents_do_not_show() {
    let mut rng = Rng::new(47);
    for task in TASKS {
        let mut equal = [0; 2];
        while equal[0] < 100 || equal[1] < 150 {
            let base = Base::draw(&mut rng, task);
            let sheet = Sheet { book: base.aimed(&mut rng), question: base.question() };
            match shown(&mut rng, reference, &sheet) {
                Shown::Refused(_) => {}
                Shown::Equal => equal[usize::from(sheet.by_mass())] += 1,
                failed => panic!("task {task}: {failed:?}"),
            }
        }
    }
}

/// A kept solvent whose mole fraction is 0 stays in the shorter sheet.
#[test]
fn a_trace_of_no_moles_is_kept() {
    let mut rng = Rng::new(53);
    for task in TASKS {
        let question = ask(task, &[0.0, 0.3, TINY, 0.7]).k(&[9.0, 2.0, 7.0, 0.5]).bytes();
        let sheet = Sheet { book: book(&[TINY, 0.018, 2.0, 0.046]), question };
        assert_eq!(sheet.kept(), [1, 2, 3]);
        assert_eq!(shown(&mut rng, reference, &sheet), Shown::Equal, "{task}");
    }
}
