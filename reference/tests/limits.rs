//! Raised limits on the reference: the borders of 20, 21 and 27, and generated calls made twice.

use reference::generate::cases::Cases;
use reference::generate::limits::{borders, turns};
use reference::limits::{limits_of, raised, HIGHEST, OF_LIMITS, PLACES};
use reference::sheet::blocks::{check_right, rule_of, words_of};
use reference::sheet::reply::REFUSAL;
use reference::stage::{Case, Stage};

/// The words of the call as it is asked, and of the same with the limits raised.
fn asked_twice(case: &Case) -> [Vec<u64>; 2] {
    let calls = case.clone().calls();
    assert_eq!(calls.len(), 2, "a call with limits raised");
    [0, 1].map(|k| calls[k].expected().words)
}

#[test]
fn borders_give_their_numbers() {
    for (case, asked, number) in borders() {
        let [first, second] = asked_twice(&case);
        assert_eq!((first[0], second[0]), (asked, number), "{}", case.line());
        assert_eq!(case.expected().words, [first, second].concat());
    }
}

#[test]
fn one_turn_too_few_is_27_and_one_more_answers() {
    let answered = turns().into_iter().filter(|(_, asked, number)| (*asked, *number) == (27, 0)).count();
    assert!(answered >= 4);
}

/// The law itself, of the reference, for a call's parts each by itself.
#[test]
fn what_was_accepted_stays() {
    let (mut kept, mut answered) = (0, 0);
    for case in Cases::new(Stage::Limits, 7, false).take(4_000) {
        let [first, second] = asked_twice(&case);
        assert_eq!(first.len(), second.len());
        if first[0] != 0 {
            assert!(OF_LIMITS.contains(&first[0]) || first == second, "{}", case.line());
            answered += usize::from(first[0] == 27 && second[0] == 0);
            continue;
        }
        assert_eq!(second[0], 0);
        for (before, after) in first[1..].chunks(576).zip(second[1..].chunks(576)) {
            let number = before.get(REFUSAL).copied().unwrap_or(0);
            assert!(OF_LIMITS.contains(&number) || before == after, "{}", case.line());
            kept += usize::from(number == 0);
        }
    }
    assert!(kept > 2_000 && answered > 100, "{kept} kept, {answered} answered once raised");
}

#[test]
fn only_the_limits_and_the_check_change() {
    for case in Cases::new(Stage::Limits, 8, false).take(300) {
        let Case::Raised { asked, limits } = &case else { panic!("a call with limits raised") };
        let (book, question) = asked.sheet().expect("a sheet");
        let (before, after) = (words_of(question), words_of(&raised(book, question, *limits)));
        assert!((0..63).all(|k| PLACES.contains(&k) || before[k] == after[k]));
        for ((at, limit), own) in PLACES.into_iter().zip(limits).zip(limits_of(question)) {
            assert_eq!(after[at], *limit);
            assert!(own == *limit || (own < *limit && *limit <= HIGHEST));
        }
        assert!(check_right(&after, rule_of(book)));
    }
}
