//! What holds of every sheet, and which sheets the generator makes.

use std::collections::{BTreeMap, BTreeSet};

use reference::generate::cases::Cases;
use reference::sheet::blocks::{Rule, Words};
use reference::sheet::{self, blocks};
use reference::stage::{Case, Stage};

/// A refusal writes nothing; an answer writes its blocks, with right checks, and nothing behind them.
#[test]
fn bytes_written() {
    let (mut answered, mut refused) = (0, 0);
    for case in Cases::new(Stage::Sheet, 11, false).take(4000) {
        let Case::Sheet { book, question, room, .. } = case else { panic!("a sheet") };
        let before: Vec<u8> = (0..room).map(|k| (k % 251) as u8).collect();
        let mut after = before.clone();
        let number = sheet::answer(&book, &question, &mut after);
        assert!(number <= 30 || number == 34 || number == 38);
        let mut written = 0;
        if number == 0 {
            let first = blocks::words_of(&after[..512]);
            written = 1 + first[12] as usize;
            assert_eq!(first[..3], [9, blocks::words_of(&question)[1], 0]);
            assert!(after[..512 * written].chunks(512).all(|block| blocks::bytes_check_right(block, Rule::Plain)));
            answered += 1;
        } else {
            refused += 1;
        }
        assert_eq!(after[512 * written..], before[512 * written..]);
    }
    assert!(answered > 1000 && refused > 1000);
}

/// The same seed gives the same cases.
#[test]
fn seeds() {
    for stage in reference::stage::STAGES {
        let lines = |seed| -> Vec<String> { Cases::new(stage, seed, true).take(20).map(|case| case.line()).collect() };
        assert_eq!(lines(3), lines(3));
        assert_ne!(lines(3), lines(4));
    }
}

/// Every number of these sheets arises: 1 to 30, 34, and 38; 35 and 36 are those of `mass`.
#[test]
fn every_number_arises() {
    let cases = Cases::new(Stage::Sheet, 5, false).take(30_000);
    let seen: BTreeSet<u32> = cases.map(|case| case.expected().refusal).collect();
    assert!(seen.into_iter().eq((0..=30).chain([34, 38])));
}

fn float(words: &Words, at: usize) -> f64 {
    f64::from_bits(words[at])
}

/// Kinds of accepted sheets that a comparison must not lack, by question and first answer block.
fn kinds(question: &Words, n: usize, answer: &Words) -> Vec<(&'static str, bool)> {
    let feed: Vec<f64> = (0..n).map(|i| float(question, 4 + i)).collect();
    let largest = feed.iter().fold(0.0, |a: f64, b| a.max(*b));
    let kept = feed.iter().filter(|z| **z > 0.0).count();
    let task = question[1];
    let solver = (3..=7).contains(&task);
    let (t, p, bubble, dew) = (float(answer, 4), float(answer, 5), float(answer, 6), float(answer, 7));
    let near = |a: f64, b: f64| task == 7 && (a / b - 1.0).abs() <= 1e-12;
    let found = |end: usize| task == 4 && answer[8] == 0 && t == float(question, end);
    vec![
        ("near pure", kept > 1 && largest > 1.0 - 1e-6),
        ("one solvent of several", n > 1 && kept == 1),
        ("one solvent", n == 1),
        ("at the bubble pressure", task == 7 && p == bubble),
        ("near the bubble pressure", near(p, bubble) && p != bubble),
        ("at the dew pressure", task == 7 && p == dew),
        ("near the dew pressure", near(p, dew) && p != dew),
        ("split at the boundary", answer[13] & 2 != 0),
        ("two phases", task == 7 && answer[3] == 3),
        ("unstable liquid", task == 6 && answer[37] == 0),
        ("root at the low end", found(17)),
        ("root at the high end", found(18)),
        ("tolerance of 1e-7 and more", solver && float(question, 13) >= 1e-7),
        ("tolerance of 1e-14 and less", solver && float(question, 13) <= 1e-14),
        ("limit 1", solver && question[12] == 1),
        ("limit 2", solver && question[12] == 2),
        ("temperature limit 1", matches!(task, 4 | 5) && question[14] == 1),
        ("temperature limit 2", matches!(task, 4 | 5) && question[14] == 2),
        ("highest limit", solver && question[12] == 1_000_000),
        ("absent +0", feed.iter().any(|z| z.to_bits() == 0)),
        ("absent -0", feed.iter().any(|z| z.to_bits() == 1 << 63)),
    ]
}

#[test]
fn every_kind_arises() {
    let mut seen: BTreeMap<&str, usize> = BTreeMap::new();
    for case in Cases::new(Stage::Sheet, 6, false).take(40_000) {
        let Case::Sheet { book, question, room } = case else { panic!("a sheet") };
        let mut answer = vec![0; room];
        if sheet::answer(&book, &question, &mut answer) == 0 {
            let n = blocks::words_of(&book[..512])[2] as usize;
            for (kind, yes) in kinds(&blocks::words_of(&question), n, &blocks::words_of(&answer[..512])) {
                *seen.entry(kind).or_default() += usize::from(yes);
            }
        }
    }
    assert!(!seen.is_empty() && seen.values().all(|times| *times >= 10), "{seen:#?}");
}
