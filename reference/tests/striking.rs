//! Demand 3 on the reference: absent solvents struck from book and question leave the answer as it was.

use reference::generate::absent::Base;
use reference::generate::cases::Cases;
use reference::generate::differences::dew_temperature;
use reference::generate::Rng;
use reference::sheet::blocks::words_of;
use reference::sheet::ANSWER_BYTES;
use reference::stage::{Case, Stage};
use reference::strike::{difference, reference, shown, Sheet, Shown, TASKS};

/// Sheets of the comparison.
#[test]
fn absent_solvents_do_not_show() {
    let mut rng = Rng::new(23);
    let mut struck = [0; 10];
    for case in Cases::new(Stage::Sheet, 23, false).take(12_000) {
        let Case::Sheet { book, question, .. } = case else { panic!("a sheet") };
        let sheet = Sheet { book, question };
        let mut answer = [0; ANSWER_BYTES];
        if reference(&sheet.book, &sheet.question, &mut answer) != 0 || sheet.kept().len() == sheet.feed().len() {
            continue;
        }
        let task = words_of(&sheet.question)[1];
        assert_eq!(shown(&mut rng, reference, &sheet), Shown::Equal);
        struck[task as usize] += 1;
    }
    assert!(TASKS.iter().all(|task| struck[*task as usize] > 50), "{struck:?}");
}

/// Sheets whose absent solvents have data at the ends of the floats.
#[test]
fn extreme_absent_solvents_do_not_show() {
    let mut rng = Rng::new(29);
    for task in TASKS {
        let mut equal = 0;
        while equal < 300 {
            let base = Base::draw(&mut rng, task);
            let sheet = Sheet { book: base.aimed(&mut rng), question: base.question() };
            match shown(&mut rng, reference, &sheet) {
                Shown::Refused(_) => {}
                Shown::Equal => equal += 1,
                failed => panic!("task {task}: {failed:?}"),
            }
        }
    }
}

/// An absent solvent whose slopes sum to infinity costs no Newton step.
#[test]
fn an_absent_solvent_does_not_steer_the_dew_temperature() {
    let mut rng = Rng::new(1);
    let mut both = |limit: u64| {
        let (book, ask) = dew_temperature(limit);
        let long = Sheet { book, question: ask.bytes() };
        let short = long.shorter(&mut rng, &[0]);
        [long, short].map(|sheet| {
            let found = sheet.blocks(&mut rng, reference, ANSWER_BYTES);
            found.map(|blocks| (f64::from_bits(blocks[0][4]), blocks[0][8]))
        })
    };
    for limit in [200, 10] {
        assert_eq!(both(limit), [Ok((350.00022942500607, 3)); 2]);
    }
}

/// A word that is not as it should be is found, wherever docs/FORMAT.md compares.
#[test]
fn differences_are_found() {
    let kept = [0, 2];
    let long = vec![std::array::from_fn(|k| 100 + k as u64), std::array::from_fn(|k| if k == 1 { 2 } else { 200 })];
    let mut short: Vec<[u64; 64]> = long.clone();
    for at in [14, 22] {
        short[0][at + 1] = long[0][at + 2];
    }
    short[1][1] = 1;
    assert_eq!(difference(&long, &short, &kept), None);
    let compared = |block: usize, k: usize| match (block, k) {
        (0, 0..14 | 30..63) => Some(k),
        // The second kept solvent stands at place 2 of the longer answer.
        (0, 14 | 22) | (1, 5) => Some(k),
        (0, 15 | 23) | (1, 6) => Some(k + 1),
        (1, 0..5 | 13..63) => Some(k),
        _ => None,
    };
    for block in 0..2 {
        for k in 0..64 {
            let mut spoiled = short.clone();
            spoiled[block][k] ^= 1 << 20;
            assert_eq!(difference(&long, &spoiled, &kept), compared(block, k).map(|at| (block, at)), "{block} {k}");
        }
    }
    // Zeros of both signs are equal, but for the count of evaluations, which is no float.
    let zeros = |zero: f64| vec![[zero.to_bits(); 64]];
    assert_eq!(difference(&zeros(0.0), &zeros(-0.0), &kept), Some((0, 38)));
    let mut counted = zeros(-0.0);
    counted[0][38] = 0;
    assert_eq!(difference(&zeros(0.0), &counted, &kept), None);
}
