//! Wilson books: the model beside its textbook form, number 37, the words of a pair block, and demand 3 on them.

mod common;

use common::{answer, bytes, call, float, floats, Ask};
use reference::generate::absent::Base;
use reference::generate::cases::Cases;
use reference::generate::mass::{ask, entered as nrtl};
use reference::generate::wilson::{borders, entered, put_terms, realistic, ALCOHOL};
use reference::generate::{feeds, vanish, Rng};
use reference::sheet::blocks::{bytes_check_right, words_of, Rule, Words, BLOCK};
use reference::sheet::book::{due_pairs, MODEL, NRTL, WILSON};
use reference::sheet::question::{BASIS, BY_MOLES, TASK};
use reference::sheet::{open_book, program_output, ANSWER_BYTES};
use reference::stage::{padded, Case, Stage};
use reference::strike::{reference, shown, Sheet, Shown, TASKS};

const MASSES: [f64; 2] = [0.06, 0.018];

fn two() -> Vec<Words> {
    entered(&MASSES, ALCOHOL)
}

fn moles(task: u64, x: &[f64]) -> Ask {
    ask(task, x).word(BASIS, BY_MOLES)
}

#[test]
fn borders_have_their_numbers() {
    for (case, number) in borders() {
        assert_eq!(case.expected().refusal, number, "{}", case.line());
    }
}

/// Task 0 in the refusal block of 37 whatever the task, by the book's own rule.
#[test]
fn refusal_blocks() {
    for (version, rule) in [(1, Rule::Plain), (2, Rule::Plain), (3, Rule::Running)] {
        for task in 1..=9 {
            let mut blocks = two();
            blocks[0][1] = version;
            blocks[0][MODEL] = 2;
            let book = bytes(&blocks);
            let out = program_output(&book, &moles(task, &[0.5, 0.5]).bytes_for(&book));
            assert!(out.len() == BLOCK && bytes_check_right(&out, rule));
            assert_eq!(words_of(&out)[..3], [9, 0, 37]);
        }
    }
}

/// x, Λ to ln γ, as textbooks have it.
fn textbook(x: &[f64], lambda: &dyn Fn(usize, usize) -> f64) -> Vec<f64> {
    let n = x.len();
    let sum = |i: usize| (0..n).map(|j| x[j] * lambda(i, j)).sum::<f64>();
    let ratios = |i: usize| (0..n).map(|k| x[k] * lambda(k, i) / sum(k)).sum::<f64>();
    (0..n).map(|i| 1.0 - sum(i).ln() - ratios(i)).collect()
}

/// A book of n solvents, and its a and b (K).
fn drawn(rng: &mut Rng, n: usize) -> (Vec<u8>, Vec<Vec<[f64; 2]>>) {
    let mut draft = realistic(rng, n);
    let mut terms = vec![vec![[0.0; 2]; n]; n];
    for (place, (i, j)) in due_pairs(n).into_iter().enumerate() {
        let four = [0, 1, 2, 3].map(|k| f64::from_bits(draft.blocks[1 + n + place][3 + k]));
        put_terms(&mut draft.blocks[1 + n + place], &four);
        terms[i][j] = [four[0], four[1]];
        terms[j][i] = [four[2], four[3]];
    }
    (draft.bytes(), terms)
}

fn near(a: f64, b: f64, off: f64) -> bool {
    (a - b).abs() <= off * (1.0 + a.abs().max(b.abs()))
}

/// ln γ is the textbook's; its slope and the energies are the derivatives that numbers beside give; Σ x ln γ is g^E/(RT) and
/// ∂(n g^E/RT)/∂n_i is ln γ_i.
#[test]
fn the_textbook_and_its_derivatives() {
    let mut rng = Rng::new(101);
    for _ in 0..400 {
        let n = rng.between(1, 8);
        let (book, terms) = drawn(&mut rng, n);
        let x = feeds::feed(&mut rng, n);
        let t = rng.range(280.0, 440.0);
        let at = |t: f64| {
            let lambda = |i: usize, j: usize| (terms[i][j][0] + terms[i][j][1] / t).exp();
            let reduced: f64 =
                -(0..n).map(|i| x[i] * (0..n).map(|j| x[j] * lambda(i, j)).sum::<f64>().ln()).sum::<f64>();
            (textbook(&x, &lambda), reduced)
        };
        let words = answer(&book, Ask::new(1, &x).at(t));
        let (ln_gamma, reduced) = at(t);
        let h = 0.01;
        let ([ln_up, ln_down], [up, down]) = ([at(t + h).0, at(t - h).0], [at(t + h).1, at(t - h).1]);
        for i in 0..n {
            assert!(near(float(&words, 14 + i), ln_gamma[i], 1e-12));
            assert!(near(float(&words, 22 + i), (ln_up[i] - ln_down[i]) / (2.0 * h), 1e-9));
        }
        let (first, second) = ((up - down) / (2.0 * h), (up - 2.0 * reduced + down) / (h * h));
        let r = 8.31446261815324;
        let [enthalpy, gibbs] = [-r * t * t * first, r * t * reduced];
        assert!(near(float(&words, 30), reduced, 1e-13) && near(float(&words, 31), gibbs, 1e-13));
        assert!(near(float(&words, 32), enthalpy, 1e-6));
        assert!(near(float(&words, 33), (enthalpy - gibbs) / t, 1e-6));
        assert!(near(float(&words, 34), -r * (2.0 * t * first + t * t * second), 1e-3));
        let by_gammas: f64 = (0..n).map(|i| x[i] * float(&words, 14 + i)).sum();
        assert!(near(by_gammas, reduced, 1e-13));
    }
}

/// Σ x_i d ln γ_i = 0 along any change of composition at one temperature.
#[test]
fn gibbs_duhem() {
    let mut rng = Rng::new(103);
    for _ in 0..200 {
        let n = rng.between(2, 8);
        let (book, _) = drawn(&mut rng, n);
        let x = feeds::feed_with(&mut rng, n, feeds::Absent::None);
        let (from, to) = (rng.below(n), rng.below(n));
        let h = 1e-5 * x[from].min(x[to]);
        let beside = |h: f64| {
            let mut x = x.clone();
            x[from] -= h;
            x[to] += h;
            floats(&answer(&book, Ask::new(1, &x)), 14, n)
        };
        let (up, down) = (beside(h), beside(-h));
        let along: f64 = (0..n).map(|i| x[i] * (up[i] - down[i]) / (2.0 * h)).sum();
        assert!(along.abs() < 1e-5 * (1.0 + 1.0 / h * 1e-10), "{along} {h}");
    }
}

/// Each answer of tasks 2 to 5 and 7 solves x_i γ_i p_i = y_i p with the model's own γ.
#[test]
fn solutions_hold() {
    let book = bytes(&two());
    for x in [0.1, 0.3, 0.68, 0.9] {
        for task in [2, 3, 4, 5, 7] {
            let words = answer(&book, moles(task, &[x, 1.0 - x]).at(350.0).under(4e4));
            if words[3] != 3 && task == 7 {
                continue;
            }
            let (t, p) = (float(&words, 4), float(&words, 5));
            let (liquid, vapor) = (floats(&words, 14, 2), floats(&words, 22, 2));
            let ln_gamma = floats(&answer(&book, Ask::new(1, &liquid).at(t)), 14, 2);
            for i in 0..2 {
                let pure = [4e6, 1e6][i] * (-7.0 * (600.0 / t - 1.0)).exp();
                assert!(near(liquid[i] * ln_gamma[i].exp() * pure / p, vapor[i], 1e-8), "{task} {x}");
            }
        }
    }
}

/// Words 7 to 14 are not read, flags and bounds keep their places; 9 and 24 don't arise.
#[test]
fn words_of_a_pair() {
    let mut rng = Rng::new(107);
    let plain = call(&bytes(&two()), moles(7, &[0.3, 0.7]));
    for _ in 0..100 {
        let mut blocks = two();
        (7..15).for_each(|at| blocks[3][at] = rng.bits());
        assert_eq!(call(&bytes(&blocks), moles(7, &[0.3, 0.7])), plain);
    }
    let interval = |low: f64, high: f64, flags: [u64; 2]| {
        let mut blocks = two();
        [blocks[3][15], blocks[3][18]] = flags;
        [blocks[3][16], blocks[3][17]] = [low.to_bits(), high.to_bits()];
        let words = answer(&bytes(&blocks), moles(1, &[0.3, 0.7]));
        [words[35], words[36]]
    };
    assert_eq!(interval(300.0, 400.0, [1, 0]), [1, 0]);
    assert_eq!(interval(300.0, 400.0, [1, 1]), [1, 1]);
    assert_eq!(interval(300.0, 340.0, [1, 1]), [2, 1]);
    assert_eq!(interval(300.0, 400.0, [0, 1]), [0, 0]);
}

/// Absent solvents keep their terms: a second derivative that overflows, times 0, refuses; one that doesn't leaves no trace.
#[test]
fn absent_terms_stay() {
    let with = |b: f64| bytes(&entered(&MASSES, [-b / 350.0, b, 0.0, 0.0]));
    assert_eq!(call(&with(1e160), moles(1, &[1.0, 0.0])), Err(25));
    let words = answer(&with(1e150), moles(1, &[1.0, 0.0]));
    assert_eq!([words[14], words[22]], [0, 0]);
    assert_eq!(call(&with(1e160), moles(2, &[1.0, -0.0])), Err(25));
}

/// A book of version 3 has the answers of that of version 2; one with word 3 = 0 those of NRTL.
#[test]
fn versions_and_models() {
    for task in 1..=9 {
        let mut blocks = two();
        let second = call(&bytes(&blocks), moles(task, &[0.3, 0.7])).expect("an answer");
        blocks[0][1] = 3;
        let third = call(&bytes(&blocks), moles(task, &[0.3, 0.7])).expect("an answer");
        let unchecked =
            |blocks: &[Words]| -> Vec<Vec<u64>> { blocks.iter().map(|words| words[..63].to_vec()).collect() };
        assert_eq!(unchecked(&second), unchecked(&third));
        let mut first = nrtl(&MASSES);
        let later = call(&bytes(&first), moles(task, &[0.3, 0.7]));
        first[0][1] = 1;
        assert_eq!(call(&bytes(&first), moles(task, &[0.3, 0.7])), later);
        assert_eq!(later.expect("an answer") == second, task > 7);
    }
}

/// 37 is put after 3 and before 4, to every version.
#[test]
fn the_place_of_37() {
    let mut all = two();
    let number = |all: &[Words]| open_book(&bytes(all)).expect_err("a number");
    all[0][MODEL] = 2;
    all[3][3] = f64::NAN.to_bits();
    all[3][0] = 4;
    all[2][2] = all[1][2];
    all[1][45] = 0;
    all[2][26] = 0;
    all[2][28] = 9;
    for version in 1..=3 {
        all[0][1] = version;
        assert_eq!(number(&all), 37);
    }
    let mut longer = all.clone();
    longer.push([0; 64]);
    assert_eq!(number(&longer), 3);
    all[0][2] = 9;
    assert_eq!(number(&all), 3);
    all[0][1] = 4;
    assert_eq!(number(&all), 38);
    for (version, word, right) in
        [(1, NRTL, true), (1, WILSON, false), (2, WILSON, true), (3, WILSON, true), (3, 2, false)]
    {
        let mut all = two();
        all[0][1] = version;
        all[0][MODEL] = word;
        // Read as NRTL: α is 0, which 24 refuses, later.
        assert_eq!(open_book(&bytes(&all)).err(), (!right).then_some(37));
    }
}

/// What the generator of the comparison makes.
#[test]
fn generated_sheets() {
    let mut numbers = [0; 39];
    let (mut wilson, mut accepted, mut absent, mut unstable) = (0, [0; 10], 0, 0);
    for case in Cases::new(Stage::Wilson, 109, false).take(40_000) {
        let found = case.expected();
        numbers[found.refusal as usize] += 1;
        let Case::Sheet { book, question, .. } = &case else { panic!("a sheet") };
        let is_wilson = book.len() >= BLOCK && words_of(&book[..BLOCK])[MODEL] == WILSON;
        assert!(!is_wilson || !matches!(found.refusal, 9 | 24), "{}", case.line());
        if question.len() != BLOCK || !is_wilson {
            continue;
        }
        let task = words_of(question)[TASK];
        wilson += usize::from((1..=7).contains(&task));
        if found.refusal == 0 {
            let sheet = Sheet { book: book.clone(), question: question.clone() };
            accepted[task as usize] += 1;
            absent += usize::from(sheet.kept().len() < sheet.feed().len());
            unstable += usize::from(task == 6 && found.words[1 + 37] == 0);
        }
    }
    let all: usize = accepted[1..8].iter().sum();
    assert!((1..=29).chain(34..=38).all(|number| numbers[number] > 0), "{numbers:?}");
    assert!(numbers[37] >= 400 && unstable > 0, "{numbers:?} {unstable}");
    assert!(wilson >= 33_000 && all >= 16_000 && 2 * absent >= all, "{wilson} {all} {absent}");
    assert!(accepted[1..8].iter().all(|times| *times > 1500), "{accepted:?}");
}

/// Demand 3 on the comparison's sheets, and on those whose absent solvents have Λ at the ends.
#[test]
fn absent_solvents_do_not_show() {
    let mut rng = Rng::new(113);
    let mut struck = [0; 10];
    for case in Cases::new(Stage::Wilson, 113, false).take(12_000) {
        let Case::Sheet { book, question, .. } = case else { panic!("a sheet") };
        let sheet = Sheet { book, question };
        let refused = reference(&sheet.book, &sheet.question, &mut [0; ANSWER_BYTES]) != 0;
        if refused || sheet.kept().len() == sheet.feed().len() {
            continue;
        }
        assert_eq!(shown(&mut rng, reference, &sheet), Shown::Equal);
        struck[words_of(&sheet.question)[TASK] as usize] += 1;
    }
    assert!((1..=7).all(|task| struck[task] > 200), "{struck:?}");
    for task in TASKS {
        let mut equal = 0;
        while equal < 300 {
            let base = Base::of_wilson(&mut rng, task);
            let sheet = Sheet { book: base.aimed(&mut rng), question: base.question() };
            match shown(&mut rng, reference, &sheet) {
                Shown::Refused(_) => {}
                Shown::Equal => equal += 1,
                failed => panic!("task {task}: {failed:?}"),
            }
        }
    }
}

/// Partial terms of Wilson books vanish or overflow too.
#[test]
fn vanishing_terms() {
    let mut rng = Rng::new(127);
    let mut numbers = [0; 39];
    for _ in 0..20_000 {
        let case = vanish::case(&mut rng);
        let Case::Sheet { book, .. } = &case else { panic!("a sheet") };
        if words_of(&book[..BLOCK])[MODEL] == WILSON {
            numbers[case.expected().refusal as usize] += 1;
        }
    }
    assert!(numbers[0] > 1000 && numbers[34] > 500 && numbers[25] > 0, "{numbers:?}");
}

/// `excess` alone: the composition before 25, which stands where NRTL has it.
#[test]
fn compositions_come_first() {
    let book = bytes(&entered(&MASSES, [800.0, 0.0, 0.0, 0.0]));
    let refusal = |t: f64, x: &[f64]| Case::Excess { book: book.clone(), t, x: padded(x) }.expected().refusal;
    assert_eq!(refusal(-1.0, &[f64::NAN, 2.0]), 13);
    assert_eq!(refusal(350.0, &[f64::NAN, -1.0]), 15);
    assert_eq!(refusal(350.0, &[2.0, -1.0]), 16);
    assert_eq!(refusal(350.0, &[0.5, 0.6]), 18);
    assert_eq!(refusal(350.0, &[0.5, 0.5]), 25);
}
