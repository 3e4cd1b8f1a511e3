//! The sample sheets of docs/FORMAT.md but (n) to (p), which stand in mass.rs; its "Others" and the traps.

mod common;

use common::{answer, blocks, book, bytes, call, float, floats, Ask};
use reference::generate::mass::entered;
use reference::generate::small::sealed_by;
use reference::generate::wilson;
use reference::helpers;
use reference::sheet::blocks::{check_of, words_of, Rule};
use reference::sheet::program_output;
use reference::stage::Case;

const ONE_THIRD: u64 = 0x3fd5_5555_5555_5555;
const TWO_THIRDS: u64 = 0x3fe5_5555_5555_5555;

fn two() -> Vec<u8> {
    book(&[4e6, 1e6], [0.0, 0.0])
}

fn halves(task: u64) -> Ask {
    Ask::new(task, &[0.5, 0.5])
}

#[test]
fn a_b_c_helper_numbers() {
    assert_eq!(helpers::exp(0.0), 1.0);
    assert_eq!(helpers::exp(710.0), f64::INFINITY);
    assert_eq!(helpers::ln(1.0).to_bits(), 0);
}

#[test]
fn d_two_phases() {
    let words = answer(&two(), halves(8).k(&[2.0, 0.5]));
    assert_eq!(words[..4], [9, 8, 0, 3]);
    assert_eq!([words[8], words[9], words[11]], [1, 0, 0.5f64.to_bits()]);
    assert_eq!(words[14..16], [ONE_THIRD, TWO_THIRDS]);
    assert_eq!(words[22..24], [TWO_THIRDS, ONE_THIRD]);
    let named = [0, 1, 3, 8, 11, 14, 15, 22, 23, 63];
    assert!((0..64).all(|k| named.contains(&k) || words[k] == 0));
}

#[test]
fn e_f_g_single_phases() {
    for (k, outcome) in [(0.5, 1), (1.0, 1), (2.0, 2)] {
        let words = answer(&two(), halves(8).k(&[k, k]));
        assert_eq!(words[3], outcome);
        assert!(words[4..63].iter().all(|word| *word == 0));
    }
}

#[test]
fn h_no_root() {
    assert_eq!(call(&two(), halves(9).k(&[2.0, 2.0])), Err(28));
}

#[test]
fn i_one_solvent() {
    let words = answer(&book(&[4e6], [0.0, 0.0]), Ask::new(1, &[1.0]).at(300.0));
    assert_eq!([words[4], words[14]], [300f64.to_bits(), 0]);
}

#[test]
fn j_ideal_mixture() {
    let words = answer(&two(), halves(1).at(300.0));
    assert_eq!(floats(&words, 14, 2), [0.0, 0.0]);
}

#[test]
fn k_sum_not_one() {
    let ask = Ask::new(8, &[0.5, 0.5000000002]).k(&[2.0, 0.5]);
    assert_eq!(call(&two(), ask), Err(18));
}

#[test]
fn l_limit_zero() {
    assert_eq!(call(&two(), halves(7).word(12, 0)), Err(20));
}

#[test]
fn m_too_cold() {
    assert_eq!(call(&two(), halves(2).at(273.15)), Err(22));
}

#[test]
fn q_r_s_running_sums() {
    let of_version = |version: u64| {
        let mut blocks = entered(&[0.5]);
        blocks[0][1] = version;
        bytes(&blocks)
    };
    let sent = |version: u64, rule: Rule| {
        let question = sealed_by(rule, Ask::new(1, &[1.0]).at(300.0).0);
        words_of(&program_output(&of_version(version), &question))
    };
    let words = sent(3, Rule::Running);
    assert_eq!(words[..5], [9, 1, 0, 0, 300f64.to_bits()]);
    assert_eq!([words[14], words[63]], [0, check_of(&words, Rule::Running)]);
    assert_ne!(words[63], check_of(&words, Rule::Plain));
    assert_eq!(sent(3, Rule::Plain)[..3], [9, 0, 11]);
    let words = sent(4, Rule::Plain);
    assert_eq!([words[0], words[1], words[2], words[63]], [9, 0, 38, 9 + 38]);
}

/// The Gibbs energy is −0, the negated sum.
#[test]
fn t_wilson_one_solvent() {
    let words = answer(&bytes(&wilson::entered(&[0.5], [0.0; 4])), Ask::new(1, &[1.0]).at(300.0));
    assert_eq!([words[4], words[14], words[22]], [300f64.to_bits(), 0, 0]);
    assert_eq!(words[30..32], [1 << 63; 2]);
    assert_eq!(floats(&words, 30, 5), [0.0; 5]);
}

#[test]
fn u_wilson_ideal_mixture() {
    let words = answer(&bytes(&wilson::entered(&[0.5, 0.5], [0.0; 4])), halves(1).at(300.0));
    assert_eq!(words[14..16], [0, 0]);
    assert_eq!(words[30..32], [1 << 63; 2]);
    assert_eq!(floats(&words, 30, 5), [0.0; 5]);
}

#[test]
fn v_wilson_in_version_1() {
    let mut blocks = blocks(&[4e6], [0.0, 0.0]);
    blocks[0][3] = 1;
    let ask = Ask::new(1, &[1.0]).at(300.0);
    assert_eq!(call(&bytes(&blocks), ask), Err(37));
    let words = words_of(&program_output(&bytes(&blocks), &ask.bytes()));
    assert_eq!([words[0], words[1], words[2], words[63]], [9, 0, 37, 9 + 37]);
}

#[test]
fn the_ends_of_the_range_pass() {
    // At 450 K a lighter book would be above 500 kPa.
    let light = book(&[1e6, 2e6], [0.1, 0.2]);
    for t in [273.16, 450.0] {
        assert!(call(&light, halves(2).at(t)).is_ok());
    }
    assert_eq!(call(&light, halves(2).at(450.00000000000006)), Err(22));
    assert_eq!(call(&light, halves(2).at(273.15999999999997)), Err(22));
}

#[test]
fn the_highest_limit_passes() {
    let high = halves(3).word(12, 1_000_000).word(14, 1_000_000);
    assert!(call(&two(), high).is_ok());
    assert_eq!(call(&two(), high.word(12, 1_000_001)), Err(21));
    assert_eq!(call(&two(), halves(8).k(&[2.0, 0.5]).word(12, 1_000_001)), Err(21));
    // Task 2 has no limit.
    assert!(call(&two(), halves(2).word(12, u64::MAX)).is_ok());
}

#[test]
fn at_the_bubble_pressure_it_is_liquid() {
    let bubble = answer(&two(), halves(2));
    let found = call(&two(), halves(7).under(float(&bubble, 5))).expect("an answer");
    let words = found[0];
    assert_eq!([words[3], words[5], words[6]], [1, bubble[5], bubble[5]]);
    // No vapor: +0. Two trials, both passed; bit 2 is only for two phases.
    assert_eq!([words[11], words[12], words[13], words[37]], [0, 2, 1, 1]);
    assert_eq!(floats(&words, 14, 2), [0.5, 0.5]);
    assert_eq!(words[22..30], [0; 8]);
    assert_eq!([found[1][0], found[1][1], found[2][1]], [10, 0, 1]);
}

/// Trap: a place among the solvents present is not a solvent's index.
#[test]
fn an_absent_solvent_in_front_changes_nothing() {
    let longer = book(&[3e-4, 4e6, 1e6], [0.4, 0.7]);
    let shorter = book(&[4e6, 1e6], [0.4, 0.7]);
    for zero in [0.0, -0.0] {
        for task in [1, 2, 3, 4, 6, 7, 8, 9] {
            let long =
                call(&longer, Ask::new(task, &[zero, 0.3, 0.7]).under(5e4).k(&[9.0, 2.0, 0.5])).expect("an answer");
            let short = call(&shorter, Ask::new(task, &[0.3, 0.7]).under(5e4).k(&[2.0, 0.5])).expect("an answer");
            assert_eq!(long[0][..14], short[0][..14]);
            assert_eq!(floats(&long[0], 30, 8), floats(&short[0], 30, 8));
            for at in [14, 22] {
                assert_eq!(floats(&long[0], at + 1, 2), floats(&short[0], at, 2));
            }
            for (a, b) in long[1..].iter().zip(&short[1..]) {
                assert_eq!([a[0], a[1], a[2], a[3], a[4]], [b[0], b[1] + 1, b[2], b[3], b[4]]);
                assert_eq!(floats(a, 6, 2), floats(b, 5, 2));
            }
        }
    }
}

/// Trap: the vapor comes from the liquid before that is divided by its sum.
#[test]
fn vapor_from_the_undivided_liquid() {
    let mut told_apart = 0;
    for step in 1..100 {
        let z1 = f64::from(step) / 100.0;
        let (z, k) = ([z1, 1.0 - z1], [3.7, 0.21]);
        let words = answer(&two(), Ask::new(9, &z).k(&k));
        let beta = float(&words, 11);
        let x = [0, 1].map(|i| z[i] / (1.0 + beta * (k[i] - 1.0)));
        let divided = |v: [f64; 2]| v.map(|w| w / (v[0] + v[1]));
        let y = [x[0] * k[0], x[1] * k[1]];
        assert_eq!(floats(&words, 14, 2), divided(x));
        assert_eq!(floats(&words, 22, 2), divided(y));
        let wrong = divided([divided(x)[0] * k[0], divided(x)[1] * k[1]]);
        told_apart += usize::from(wrong != divided(y));
    }
    assert!(told_apart > 0);
}

/// Trap: |min(β, 1 − β)|, not |β|. A split that converges to β a little above 1 is the saturated vapor.
#[test]
fn beside_the_dew_point_it_is_vapor() {
    let nonideal = book(&[4e6, 1e6], [0.9, 0.4]);
    let mut seen = 0;
    for step in 1..60 {
        let ask = Ask::new(7, &[f64::from(step) / 60.0, 1.0 - f64::from(step) / 60.0]).float(13, 1e-12);
        let first = answer(&nonideal, ask.under(1e5));
        for above in 1..4 {
            let words = answer(&nonideal, ask.under(f64::from_bits(first[7] + above)));
            if words[13] & 2 == 0 {
                continue;
            }
            assert!(words[3] == 1 || words[3] == 2);
            assert_eq!(words[8..11], [0, 0, 0]);
            seen += usize::from(words[3] == 2 && float(&words, 11) == 1.0 && words[12] == 0);
        }
    }
    assert!(seen > 0);
}

/// Trap: a NaN does not spoil a max. A trace that underflows in both phases has ln 0 − ln 0 in the flash's residual.
#[test]
fn a_trace_that_underflows_is_passed_over() {
    let three = book(&[1e6, 8e6, 9e7], [0.0, 0.0]);
    let ask = Ask::new(7, &[0.5, 0.5, f64::from_bits(1)]).under(1.8e4);
    let words = answer(&three, ask);
    assert_eq!(words[3], 3);
    assert_eq!([float(&words, 16), float(&words, 24)], [0.0, 0.0]);
    assert!(float(&words, 9) <= 1e-10);
}

/// A NaN in an accepted answer is written in one way.
#[test]
fn the_written_nan() {
    let ask = Ask::new(9, &[1.0, 1e-320]).k(&[0.9999999999999998, 1.0000000000000002]);
    let words = answer(&two(), ask);
    assert_eq!(float(&words, 11), -4503599627370496.0);
    assert_eq!([words[9], words[14], words[15]], [helpers::WRITTEN_NAN, 0, helpers::WRITTEN_NAN]);
}

/// The order of questions: `normalize` before alpha, and in an evaluation the composition before it.
#[test]
fn compositions_come_before_alpha() {
    let mut all = blocks(&[1e-312, 1e-312], [0.0, 0.0]);
    for at in [11, 13] {
        all[3][at] = (-1.0f64).to_bits();
    }
    let bad_alpha = bytes(&all);
    assert_eq!(call(&bad_alpha, halves(1)), Err(24));
    assert_eq!(call(&bad_alpha, halves(3)), Err(34));
    let evaluation = Case::Excess { book: bad_alpha, t: 350.0, x: [f64::NAN; 8] };
    assert_eq!(evaluation.expected().refusal, 15);
}

/// The bracket's low end is returned with no iteration.
#[test]
fn the_low_end_solves() {
    let bubble = answer(&two(), halves(2).at(320.0));
    let ask = halves(4).under(float(&bubble, 5)).float(17, 320.0);
    let words = answer(&two(), ask);
    assert_eq!([float(&words, 4), float(&words, 5)], [320.0, float(&bubble, 5)]);
    assert_eq!(words[8], 0);
    assert_eq!(call(&two(), ask.under(1e2)), Err(26));
}

/// Raoult's law by hand: p = Σ x p_sat.
#[test]
fn ideal_bubble_pressure() {
    let words = answer(&two(), halves(2));
    let saturation = |reducing: f64| reducing * (-7.0 * (600.0 / 350.0 - 1.0f64)).exp();
    let by_hand = 0.5 * saturation(4e6) + 0.5 * saturation(1e6);
    assert!((float(&words, 5) / by_hand - 1.0).abs() < 1e-13);
    assert!((float(&words, 22) - 0.8).abs() < 1e-13);
    assert_eq!([words[3], words[8], words[11]], [0, 0, 0]);
}

/// One solvent: bubble and dew are the same, and a liquid is stable with no trials.
#[test]
fn one_solvent_flash() {
    let one = book(&[4e6], [0.0, 0.0]);
    let bubble = float(&answer(&one, Ask::new(2, &[1.0])), 5);
    let liquid = answer(&one, Ask::new(7, &[1.0]).under(bubble));
    assert_eq!([liquid[3], liquid[12], liquid[37]], [1, 0, 1]);
    let vapor = answer(&one, Ask::new(7, &[1.0]).under(0.99 * bubble));
    assert_eq!([vapor[3], vapor[12], vapor[13], vapor[37]], [2, 0, 1, 0]);
    assert_eq!(float(&vapor, 11), 1.0);
}

/// An answer block and a trial for each of two solvents.
#[test]
fn trials_of_two() {
    assert_eq!(call(&two(), halves(6)).expect("an answer").len(), 3);
}

/// Word 1 of a refusal block is the task, or 0 for numbers 1 to 12.
#[test]
fn refusal_blocks() {
    let words = |book: &[u8], question: &[u8]| {
        let out = reference::sheet::program_output(book, question);
        assert_eq!(out.len(), 512);
        let words = reference::sheet::blocks::words_of(&out);
        assert!(reference::sheet::blocks::check_right(&words, reference::sheet::blocks::rule_of(book)));
        [words[0], words[1], words[2]]
    };
    assert_eq!(words(&[], &halves(2).bytes()), [9, 0, 1]);
    assert_eq!(words(&two(), &[0; 513]), [9, 0, 11]);
    assert_eq!(words(&two(), &halves(2).at(273.15).bytes()), [9, 2, 22]);
    let mut long = two();
    long.resize(600 * 512, 0);
    assert_eq!(words(&long, &halves(2).bytes()), [9, 0, 3]);
}

/// The sheets of crates/samples/specs/Absent.antt: solvent 0 is absent, with extreme data.
#[test]
fn an_absent_solvent_before_the_kept() {
    let kept = blocks(&[4e6, 1e6], [0.0, 0.0]);
    let mut long = blocks(&[1e300, 4e6, 1e6], [1e300, 1000.0]);
    long[6][3..11].copy_from_slice(&[0; 8]);
    for (book, feed, shift) in [(long, vec![0.0, 0.25, 0.75], 1), (kept, vec![0.25, 0.75], 0)] {
        let all = call(&bytes(&book), Ask::new(7, &feed)).expect("an answer");
        assert_eq!(all[0][..4], [9, 7, 0, 1]);
        assert_eq!(all[0][6..14], [0x40c7_07b4_20b7_2ebc, 0x40c0_326d_cddd_aab7, 0, 0, 0, 0, 2, 1]);
        assert_eq!(floats(&all[0], 14, feed.len()), feed);
        for (place, trial) in all[1..].iter().enumerate() {
            assert_eq!(trial[..5], [10, place as u64 + shift, 0, 2, 1]);
            assert_eq!(floats(trial, 5, feed.len()), feed);
        }
    }
}

/// The sheets that are compared first on both sides give the numbers they have to.
#[test]
fn sheets_that_come_first() {
    for (case, number) in reference::generate::small::others() {
        assert_eq!(case.expected().refusal, number, "{}", case.line());
    }
}
