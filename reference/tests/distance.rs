//! Distances on the reference: the borders of the steps, the steps once more from their pressures, and what is written.

use reference::generate::cases::Cases;
use reference::generate::distances::borders;
use reference::sheet::blocks::{check_right, rule_of, words_of};
use reference::sheet::distance::{answer, at_step, flashed, search, steps, Distance, Search, Way};
use reference::sheet::question::{PRESSURE, TASK};
use reference::sheet::reply::OUTCOME;
use reference::sheet::{self, ANSWER_BYTES};
use reference::stage::{Case, Stage};

struct Asked {
    book: Vec<u8>,
    question: Vec<u8>,
}

impl Asked {
    fn of(case: Case) -> Self {
        match case {
            Case::Distance { book, question, .. } => Self { book, question },
            _ => panic!("a distance"),
        }
    }

    fn search(&self, way: Way) -> Result<Search, u32> {
        search(&self.book, &self.question, way)
    }

    /// Word 3 of the plain call's answer.
    fn outcome(&self, question: &[u8]) -> Result<u64, u32> {
        flashed(&self.book, question).map(|answer| words_of(&answer[..512])[OUTCOME])
    }
}

fn generated(seed: u64, count: usize) -> impl Iterator<Item = Asked> {
    let borders = borders().len();
    Cases::new(Stage::Distance, seed, false).skip(borders).take(count).map(Asked::of)
}

#[test]
fn borders_give_what_is_due() {
    for (case, due) in borders() {
        let found = case.expected();
        let shown = found.search.map_or(Err(found.refusal), |search| Ok((search.distance, search.refused.len())));
        assert_eq!(shown, due, "{}", case.line());
    }
}

#[test]
fn steps_go_up_and_down_by_turns() {
    let all: Vec<i64> = steps().collect();
    assert_eq!(all.len(), 2000);
    assert_eq!((&all[..6], &all[1998..]), (&[1, -1, 2, -2, 3, -3][..], &[1000, -1000][..]));
}

#[test]
fn a_step_changes_the_pressure_and_the_check() {
    for asked in generated(2, 40) {
        if asked.search(Way::Sides).is_err() {
            continue;
        }
        let before = words_of(&asked.question);
        for s in [1, -1, 17, 1000, -1000] {
            let after = words_of(&at_step(&asked.book, &asked.question, s));
            assert!((0..63).all(|k| k == PRESSURE || before[k] == after[k]));
            assert_eq!(f64::from_bits(after[PRESSURE]), f64::from_bits(before[PRESSURE]) + 100.0 * s as f64);
            assert!(check_right(&after, rule_of(&asked.book)));
        }
    }
}

/// The first of all 2000 outcomes that is another, reckoned from the list of them.
#[test]
fn the_first_other_outcome_is_found() {
    let (mut found, mut none, mut behind) = (0, 0, 0);
    for asked in generated(3, 30) {
        let Ok(search) = asked.search(Way::Sides) else { continue };
        let own = asked.outcome(&asked.question).expect("the flash at P is accepted");
        let all: Vec<_> = steps().map(|s| (s, asked.outcome(&at_step(&asked.book, &asked.question, s)))).collect();
        let at = all.iter().position(|(_, outcome)| outcome.is_ok_and(|outcome| outcome != own));
        let due = at.map_or(Distance::None, |at| Distance::Step { s: all[at].0, outcome: all[at].1.unwrap_or(0) });
        let refused: Vec<u32> = all[..at.unwrap_or(2000)].iter().filter_map(|(_, outcome)| outcome.err()).collect();
        behind += usize::from(!refused.is_empty());
        assert_eq!(search, Search { distance: due, refused });
        *(if at.is_some() { &mut found } else { &mut none }) += 1;
    }
    assert!(found > 8 && none > 0 && behind > 2, "{found} found, {none} none, {behind} behind refused steps");
}

/// A flash refused at P gives its number, and no other flash does.
#[test]
fn refused_as_the_flash_at_p() {
    let mut refused = 0;
    for asked in generated(4, 400) {
        let plain = sheet::answer(&asked.book, &asked.question, &mut [0; ANSWER_BYTES]);
        let task = words_of(&asked.question)[TASK];
        if plain == 0 && task == 7 {
            continue;
        }
        refused += 1;
        let mut words = [5; 6];
        let number = answer(&asked.book, &asked.question, Way::Sides, &mut words);
        let other = task != 7 && !matches!(plain, 1..=9 | 11 | 35 | 37 | 38);
        assert_eq!((number, words), (if other { 12 } else { plain }, [5; 6]));
    }
    assert!(refused > 100, "{refused}");
}

#[test]
fn four_words_or_nothing() {
    let noise = [11, 12, 13, 14, 15, 16];
    for (case, due) in borders().into_iter().step_by(5) {
        let asked = Asked::of(case);
        let four = match due {
            Err(_) => [11, 12, 13, 14],
            Ok((Distance::None, refused)) => [0, 0, 0, refused as u64],
            Ok((Distance::Step { s, outcome }, refused)) => [1, s as u64, outcome, refused as u64],
        };
        for room in 0..=6 {
            let mut words = noise[..room].to_vec();
            let number = answer(&asked.book, &asked.question, Way::Sides, &mut words);
            assert_eq!(number, due.err().unwrap_or(0));
            let written = if room < 4 { noise[..room].to_vec() } else { [&four, &noise[4..room]].concat() };
            assert_eq!(words, written);
        }
    }
}
