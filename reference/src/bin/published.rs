//! Published NRTL and Wilson examples: activity coefficients by task 1 and an azeotrope by task 2, of the core and of the reference,
//! beside the printed ones. Ends with status 1 where one is further off than its tolerance.

use std::process::ExitCode;

use reference::command::not_built_in_fails;
use reference::generate::small::{blocks, bytes, constant, put, Ask};
use reference::generate::wilson::entered;
use reference::rattle;
use reference::sheet::blocks::{words_of, Words};
use reference::sheet::reply::{LIQUID, VAPOR};
use reference::sheet::{self, ANSWER_BYTES};

/// Sources that print 16 digits or more: τ or Λ, ln γ and γ are rounded a few times.
const ALL_DIGITS: f64 = 1e-13;
/// Sources that print 13 digits.
const THIRTEEN_DIGITS: f64 = 1e-12;
/// A vapor beside its liquid: four digits are printed of the azeotrope and of the vapor pressures.
const FOUR_DIGITS: f64 = 2e-4;
/// J/cal.
const CALORIE: f64 = 4.184;
const R: f64 = 8.31446261815324;

/// A sheet, and what is printed of its answer.
struct Example {
    name: &'static str,
    book: Vec<Words>,
    ask: Ask,
    stated: Stated,
    tolerance: f64,
}

enum Stated {
    Gammas(Vec<f64>),
    /// The vapor of a bubble point has its liquid's composition.
    Azeotrope,
}

impl Stated {
    /// Largest relative distance of an answer; NaN if there is none.
    fn distance(&self, number: u64, answer: &[u8]) -> f64 {
        if number != 0 {
            return f64::NAN;
        }
        let words = words_of(&answer[..512]);
        let float = |at: usize| f64::from_bits(words[at]);
        let found: Vec<(f64, f64)> = match self {
            Stated::Gammas(gammas) => (0..gammas.len()).map(|i| (float(LIQUID + i).exp(), gammas[i])).collect(),
            Stated::Azeotrope => (0..2).map(|i| (float(VAPOR + i), float(LIQUID + i))).collect(),
        };
        found.iter().map(|(a, b)| (a / b - 1.0).abs()).max_by(f64::total_cmp).unwrap_or(f64::NAN)
    }
}

/// From the tests and the manual of the Python library `thermo` (C. Bell and contributors), function `NRTL_gammas`. The pair
/// is ethanol and water of P05.01b in Gmehling, Kolbe, Kleiber and Rarey, Chemical Thermodynamics for Process Simulation.
fn nrtl_examples() -> Vec<Example> {
    let pair = |name, tau, gammas: [f64; 2]| nrtl(name, &[tau], &[0.2974], &[0.252, 0.748], &gammas);
    vec![
        pair("ethanol and water, τ given", [[-0.178, 0.0], [1.963, 0.0]], [1.9363183763514304, 1.1537609663170014]),
        pair(
            "ethanol and water, -121.2691 and 1337.8574 cal/mol",
            [[0.0, -121.2691 * CALORIE / R], [0.0, 1337.8574 * CALORIE / R]],
            [1.936051651447544, 1.1536630452052914],
        ),
        nrtl(
            "three solvents, τ given",
            &[
                [[2.291653777670652, 0.0], [4.308652420938829, 0.0]],
                [[0.5166949715946564, 0.0], [0.5527434579849811, 0.0]],
                [[1.6753963198550983, 0.0], [0.15106032392136134, 0.0]],
            ],
            &[0.4, 0.3, 0.3],
            &[0.1, 0.3, 0.6],
            &[2.7175098659360413, 2.1373006474468697, 1.085133765593844],
        ),
    ]
}

/// At 343.15 K. Pairs (0, 1), (0, 2), (1, 2) as far as there are solvents; τ_ij and τ_ji each as [t0, t1].
fn nrtl(name: &'static str, tau: &[[[f64; 2]; 2]], alpha: &[f64], x: &[f64], gammas: &[f64]) -> Example {
    let n = x.len();
    let mut book = blocks(&vec![1e6; n], [0.0, 0.0]);
    for (pair, (tau, alpha)) in book[1 + n..].iter_mut().zip(tau.iter().zip(alpha)) {
        put(pair, 3, &tau[0]);
        put(pair, 7, &tau[1]);
        put(pair, 11, &[*alpha, 0.0, *alpha, 0.0]);
    }
    let stated = Stated::Gammas(gammas.to_vec());
    Example { name, book, ask: Ask::new(1, x).at(343.15), stated, tolerance: ALL_DIGITS }
}

/// The first two are from the manual and the tests of `thermo`: function `Wilson_gammas`, and class `Wilson`, whose exponents
/// A + B/T + D T stand here with a = A + D T. The third is 2-propanol and water of Smith, Van Ness and Abbott, Introduction to Chemical
/// Engineering Thermodynamics, as remembered: 437.98 and 1238.00 cal/mol, 76.92 and 18.07 cm³/mol, vapor pressures 92.59 and 47.38 kPa
/// at 353.15 K, azeotrope at x = 0.7173. Its pressure isn't held to anything: the book's was not at hand.
fn wilson_examples() -> Vec<Example> {
    let gammas = |name, kelvin, pairs: &[[f64; 4]], x: &[f64], gammas: &[f64], tolerance| Example {
        name,
        book: wilson(x.len(), pairs),
        ask: Ask::new(1, x).at(kelvin),
        stated: Stated::Gammas(gammas.to_vec()),
        tolerance,
    };
    let t = 331.42;
    let x = [0.7173, 1.0 - 0.7173];
    let ln_volumes = (18.07f64 / 76.92).ln();
    // K, with the book's R.
    let energy = |calories: f64| calories / 1.987;
    let mut alcohol = wilson(2, &[[ln_volumes, -energy(437.98), -ln_volumes, -energy(1238.0)]]);
    for (words, pure) in alcohol[1..].iter_mut().zip(constant(&[92.59e3, 47.38e3], [0.0, 0.0])[1..].iter().take(2)) {
        words[..45].copy_from_slice(&pure[..45]);
    }
    vec![
        gammas(
            "Wilson, ethanol and water, Λ given",
            343.15,
            &[[0.154f64.ln(), 0.0, 0.888f64.ln(), 0.0]],
            &[0.252, 0.748],
            &[1.881492608717, 1.165577493112],
            THIRTEEN_DIGITS,
        ),
        gammas(
            "Wilson, acetone, chloroform and methanol",
            t,
            &[
                [3.870101271243586 - 0.00791073 * t, -375.2835, -6.491263271243587 + 0.00747788 * t, 1722.58],
                [0.07939943395502425 - 0.000868371 * t, -31.1208, 0.8542855660449756 + 0.00124796 * t, -747.217],
                [-3.276991837288562 - 3.1e-05 * t, 1140.79, 6.906801837288562 - 3e-05 * t, -3596.17],
            ],
            &[0.229, 0.175, 0.596],
            &[1.223393433488855, 1.1009459024701462, 1.2052899281172034],
            ALL_DIGITS,
        ),
        Example {
            name: "Wilson, azeotrope of 2-propanol and water",
            book: alcohol,
            ask: Ask::new(2, &x).at(353.15),
            stated: Stated::Azeotrope,
            tolerance: FOUR_DIGITS,
        },
    ]
}

/// Pairs (0, 1), (0, 2), (1, 2) as far as there are solvents: a_ij, b_ij (K), a_ji, b_ji (K).
fn wilson(n: usize, pairs: &[[f64; 4]]) -> Vec<Words> {
    let mut book = entered(&vec![0.05; n], [0.0; 4]);
    book[1 + n..].iter_mut().zip(pairs).for_each(|(words, terms)| put(words, 3, terms));
    book
}

fn main() -> ExitCode {
    let mut failed = false;
    for Example { name, book, ask, stated, tolerance } in nrtl_examples().into_iter().chain(wilson_examples()) {
        let (book, question) = (bytes(&book), ask.bytes());
        let mut answer = [0; ANSWER_BYTES];
        let number = sheet::answer(&book, &question, &mut answer);
        let own = stated.distance(number.into(), &answer);
        let mut answer = [0; ANSWER_BYTES];
        let Some(number) = rattle::answer(&book, &question, &mut answer) else {
            println!("published: {name}: reference {own:.0e}, core not built in");
            failed |= not_built_in_fails() || own.is_nan() || own > tolerance;
            continue;
        };
        let core = stated.distance(number, &answer);
        let right = core <= tolerance && own <= tolerance;
        failed |= !right;
        let verdict = if right { "within" } else { "NOT within" };
        println!("published: {name}: core {core:.0e}, reference {own:.0e}, {verdict} {tolerance:.0e}");
    }
    ExitCode::from(u8::from(failed))
}
