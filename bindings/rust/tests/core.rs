//! The core through the typed side: each task, each number that typed inputs can meet, and what a call leaves alone.

#[path = "../examples/ethanol_water/mod.rs"]
mod ethanol_water;

use ethanol_water::{ethanol_water, in_the_making};
use zektonk::{
    answer, answer_bytes, bubble_pressure, bubble_temperature, dew_pressure, dew_temperature, excess_at,
    liquid_stability, rachford_rice, rachford_rice_negative, tp_flash,
};
use zektonk::{
    Answer, Block, Book, Builder, Correlation, Feed, Kelvin, Model, Options, Pair, Pascal, Phases, Place, Question,
    Reason, Refusal, Rule, Solvent, Split, Task, UpToEight, Validity, WilsonPair, Words, ANSWER_ROOM, BLOCK,
};

const STORED_BOOK: &[u8] = include_bytes!("../../../crates/still/data/book.bin");
const STORED_QUESTION: &[u8] = include_bytes!("../../../crates/still/stdin");

const T: Kelvin = Kelvin(351.44);
const P: Pascal = Pascal(90_000.0);

fn options() -> Options {
    Options::default()
}

fn flash_at(temperature: Kelvin, pressure: Pascal) -> Task {
    Task::TpFlash { temperature, pressure, options: options() }
}

fn ask(task: Task, feed: impl Into<Feed>) -> Result<Answer, Refusal> {
    answer(&ethanol_water().unwrap(), &Question::new(task, feed))
}

fn split(z: [f64; 2], k: [f64; 2], max_iterations: u64) -> Result<Answer, Refusal> {
    ask(Task::RachfordRice { k: k.into(), max_iterations }, z)
}

#[test]
fn builder_writes_the_stored_book() {
    assert_eq!(ethanol_water().unwrap().bytes(), STORED_BOOK);
}

#[test]
fn excess_of_two_solvents_and_of_one() {
    let Ok(Answer::Excess(found)) = ask(Task::ExcessAt { temperature: T }, [0.5, 0.5]) else { panic!("task 1") };
    assert_eq!(found.temperature, T);
    assert_eq!((found.validity, found.inferred), (Validity::Within, false));
    assert!(found.ln_gamma.iter().all(|v| *v > 0.0), "ethanol and water deviate positively from Raoult's law");
    // g^E/(RT) = Σ x ln γ
    let sum: f64 = found.ln_gamma.iter().map(|v| 0.5 * v).sum();
    assert!((found.energies.reduced_gibbs - sum).abs() < 1e-14);
    let difference = found.energies.gibbs - (found.energies.enthalpy - T.0 * found.energies.entropy);
    assert!(difference.abs() < 1e-9, "g = h - T s");
    let Ok(Answer::Excess(pure)) = ask(Task::ExcessAt { temperature: Kelvin(500.0) }, [1.0, 0.0]) else {
        panic!("task 1")
    };
    assert_eq!(pure.ln_gamma[0], 0.0);
    assert_eq!(pure.validity, Validity::Unassessed, "no pair is present");
    let validity = |book: &Book<'_>, t| match answer(
        book,
        &Question::new(Task::ExcessAt { temperature: Kelvin(t) }, [0.5, 0.5]),
    ) {
        Ok(Answer::Excess(found)) => found.validity,
        other => panic!("task 1: {other:?}"),
    };
    assert_eq!(validity(&ethanol_water().unwrap(), 400.0), Validity::Extrapolated);
    assert_eq!(validity(&immiscible(), 400.0), Validity::Unassessed, "the pair has no interval");
}

#[test]
fn bubble_and_dew_points_meet() {
    let Ok(Answer::BubblePressure(bubble)) = ask(Task::BubblePressure { temperature: T }, [0.5, 0.5]) else {
        panic!("task 2")
    };
    assert_eq!((bubble.temperature, bubble.iterations), (T, 0));
    assert_eq!(bubble.liquid, [0.5, 0.5].into());
    let task = Task::BubbleTemperature { pressure: bubble.pressure, options: options() };
    let Ok(Answer::BubbleTemperature(back)) = ask(task, [0.5, 0.5]) else { panic!("task 4") };
    assert!((back.temperature.0 - T.0).abs() < 1e-8);
    // The vapor of the bubble point has its dew point there.
    let task = Task::DewPressure { temperature: T, options: options() };
    let Ok(Answer::DewPressure(dew)) = ask(task, bubble.vapor) else { panic!("task 3") };
    assert!((dew.pressure.0 / bubble.pressure.0 - 1.0).abs() < 1e-9);
    assert!((dew.liquid[0] - 0.5).abs() < 1e-8);
    let task = Task::DewTemperature { pressure: bubble.pressure, options: options() };
    let Ok(Answer::DewTemperature(found)) = ask(task, bubble.vapor) else { panic!("task 5") };
    assert!((found.temperature.0 - T.0).abs() < 1e-8);
}

#[test]
fn trials_of_a_liquid() {
    let task = Task::LiquidStability { temperature: T, options: options() };
    let Ok(Answer::LiquidStability(found)) = ask(task, [0.5, 0.5]) else { panic!("task 6") };
    assert!(found.stable);
    assert_eq!(found.trials.iter().map(|trial| trial.component).collect::<Vec<_>>(), [0, 1]);
    assert!(found.trials.iter().all(|trial| trial.fractions.len() == 2 && trial.iterations > 0));
    let Ok(Answer::LiquidStability(pure)) = ask(task, [0.0, 1.0]) else { panic!("task 6") };
    assert!(pure.stable && pure.trials.is_empty());
    let Ok(Answer::LiquidStability(apart)) = answer(&immiscible(), &Question::new(task, [0.5, 0.5])) else {
        panic!("task 6")
    };
    assert!(!apart.stable);
}

#[test]
fn flashes_of_each_outcome() {
    let phases = |pressure| match ask(flash_at(T, Pascal(pressure)), [0.5, 0.5]) {
        Ok(Answer::TpFlash(flash)) => flash,
        other => panic!("task 7: {other:?}"),
    };
    let liquid = phases(120_000.0);
    assert_eq!((liquid.phases, liquid.vapor_fraction), (Phases::Liquid([0.5, 0.5].into()), 0.0));
    assert!(liquid.tested.is_some_and(|tested| tested.stable && tested.trials.len() == 2));
    let vapor = phases(70_000.0);
    assert_eq!((vapor.phases, vapor.vapor_fraction), (Phases::Vapor([0.5, 0.5].into()), 1.0));
    assert!(vapor.tested.is_none());
    let both = phases(P.0);
    let Phases::Both { liquid, vapor } = both.phases else { panic!("two phases") };
    let balance = (1.0 - both.vapor_fraction) * liquid[0] + both.vapor_fraction * vapor[0];
    assert!((balance - 0.5).abs() < 1e-12);
    assert!(both.notes.gamma_phi() && both.notes.liquid_tpd_finite_trials());
    assert!(both.dew < P && P < both.bubble);
}

#[test]
fn splits_of_the_samples() {
    let Ok(Answer::RachfordRice(Split::TwoPhase(d))) = split([0.5, 0.5], [2.0, 0.5], 200) else { panic!("(d)") };
    assert_eq!((d.vapor_fraction, d.residual, d.iterations), (0.5, 0.0, 1));
    let third = f64::from_bits(0x3fd5_5555_5555_5555);
    assert_eq!((d.liquid, d.vapor), ([third, 2.0 * third].into(), [2.0 * third, third].into()));
    assert_eq!(split([0.5, 0.5], [0.5, 0.5], 200), Ok(Answer::RachfordRice(Split::LiquidOnly)));
    assert_eq!(split([0.5, 0.5], [1.0, 1.0], 200), Ok(Answer::RachfordRice(Split::LiquidOnly)));
    assert_eq!(split([0.5, 0.5], [2.0, 2.0], 200), Ok(Answer::RachfordRice(Split::VaporOnly)));
    assert_eq!(split([0.5, 0.5000000002], [2.0, 0.5], 200), Err(Reason::FractionSum.into()));
    let negative = |k: [f64; 2]| ask(Task::RachfordRiceNegative { k: k.into(), max_iterations: 200 }, [0.5, 0.5]);
    assert_eq!(negative([2.0, 2.0]), Err(Reason::KOneSided.into()));
    let Ok(Answer::RachfordRiceNegative(found)) = negative([1.2, 0.1]) else { panic!("task 9") };
    assert!(found.vapor_fraction < 0.0);
}

/// Two liquids that part, and boil where water does.
fn immiscible() -> Book<'static> {
    book_with(Pair { tau_ij: [4.0, 0.0, 0.0, 0.0], tau_ji: [4.0, 0.0, 0.0, 0.0], alpha: [0.2, 0.0], interval: None })
}

/// Two solvents with one vapor pressure.
fn book_with(pair: Pair) -> Book<'static> {
    two_solvents().pair(0, 1, pair).build().unwrap()
}

fn two_solvents() -> Builder {
    let record =
        Correlation { t_r: 647.0, reducing_value: 2.2e7, range: [273.16, 640.0], terms: [(-7.5, 1.0).into()].into() };
    let solvent = |cas| Solvent { cas, vapor_pressure: record, density: record };
    Book::builder().solvent(solvent(1)).solvent(solvent(2))
}

fn wilson_with(pair: WilsonPair) -> Book<'static> {
    two_solvents().model(Model::Wilson).molar_masses([0.06, 0.018]).wilson_pair(0, 1, pair).build().unwrap()
}

/// 2-propanol and water at 353.15 K as in Smith, Van Ness and Abbott's example: Λ 0.1258 and 0.7292.
#[test]
fn wilson_s_equation() {
    let (r, ratio) = (1.98720425864083, (18.07_f64 / 76.92).ln());
    let pair = WilsonPair { ij: [ratio, -437.98 / r], ji: [-ratio, -1238.0 / r], interval: None };
    let (t, x) = (353.15, [0.25, 0.75]);
    let [there, back] = [pair.ij, pair.ji].map(|[a, b]| (a + b / t).exp());
    assert!((there - 0.1258).abs() < 1e-4 && (back - 0.7292).abs() < 2e-4);
    let sums = [x[0] + x[1] * there, x[0] * back + x[1]];
    let due = [
        1.0 - sums[0].ln() - x[0] / sums[0] - x[1] * back / sums[1],
        1.0 - sums[1].ln() - x[0] * there / sums[0] - x[1] / sums[1],
    ];
    let found = excess_at(&wilson_with(pair), x, Kelvin(t)).unwrap();
    assert!((0..2).all(|i| (found.ln_gamma[i] - due[i]).abs() < 1e-14), "{found:?} for {due:?}");
    let sum: f64 = (0..2).map(|i| x[i] * found.ln_gamma[i]).sum();
    assert!((found.energies.reduced_gibbs - sum).abs() < 1e-14);
    let flash = tp_flash(&wilson_with(pair), x, Kelvin(t), Pascal(40_000.0), options()).unwrap();
    assert!(flash.notes.gamma_phi());
}

#[test]
fn refusals_of_wilson_books() {
    let zeros = WilsonPair { ij: [0.0; 2], ji: [0.0; 2], interval: None };
    let refused = |book: &Book<'_>| excess_at(book, [0.5, 0.5], Kelvin(300.0)).err();
    let ideal = excess_at(&wilson_with(zeros), [0.5, 0.5], Kelvin(300.0)).unwrap();
    assert_eq!(ideal.ln_gamma, [0.0, 0.0].into());
    for pair in [WilsonPair { ij: [f64::NAN, 0.0], ..zeros }, WilsonPair { ji: [0.0, f64::INFINITY], ..zeros }] {
        assert_eq!(refused(&wilson_with(pair)), Some(Reason::PairNumber.at(Place::Block(3))));
    }
    // Words 7 to 14 are not read: a τ and two alphas that NRTL would refuse.
    let sealed = |words: Words| words.seal_by(Rule::Running);
    let head = |version: u64, model| Words::new(1).word(1, version).word(2, 2).word(3, model);
    let wilson = wilson_with(zeros);
    let odd = sealed(Words::new(3).word(2, 1).float(7, f64::NAN).float(11, -1.0).float(13, 1.0));
    assert_eq!(refused(&Book::from([&wilson.bytes()[..3 * BLOCK], &odd].concat())), None);
    for model in [2, u64::MAX] {
        let book = Book::from([&sealed(head(3, model))[..], &wilson.bytes()[BLOCK..]].concat());
        assert_eq!((book.model(), refused(&book)), (None, Some(Reason::BookModel.into())));
    }
    let first = Book::from([&head(1, 1).seal()[..], &STORED_BOOK[BLOCK..]].concat());
    assert_eq!((first.model(), refused(&first)), (None, Some(Reason::BookModel.into())));
}

#[test]
fn refusals_of_books() {
    let refused = |book: &Book<'_>| answer(book, &Question::new(flash_at(T, P), [0.5, 0.5])).unwrap_err();
    let [ethanol, water, pair_of_both] = [1, 2, 3].map(Place::Block);
    assert_eq!(refused(&Book::from(&STORED_BOOK[1..])), Reason::BookLength.into());
    let mut bytes = STORED_BOOK.to_vec();
    bytes[600] ^= 1;
    assert_eq!(refused(&Book::from(bytes)), Reason::BookCheck.at(ethanol));
    assert_eq!(refused(&Book::from(&STORED_BOOK[..3 * BLOCK])), Reason::BookHead.into());
    let zeros = Pair { tau_ij: [0.0; 4], tau_ji: [0.0; 4], alpha: [0.3, 0.0], interval: None };
    let of = |first: Solvent, second: Solvent| {
        refused(&Book::builder().solvent(first).solvent(second).pair(0, 1, zeros).build().unwrap())
    };
    let record =
        Correlation { t_r: 647.0, reducing_value: 2.2e7, range: [273.16, 640.0], terms: [(-7.5, 1.0).into()].into() };
    let right = Solvent { cas: 1, vapor_pressure: record, density: record };
    assert_eq!(of(right, Solvent { cas: 0, ..right }), Reason::SolventBlock.at(water));
    let turned = Correlation { range: [640.0, 273.16], ..record };
    assert_eq!(of(right, Solvent { cas: 2, density: turned, ..right }), Reason::SolventNumber.at(water));
    assert_eq!(of(right, right), Reason::SolventTwice.at(Place::Pair(0, 1)));
    assert_eq!(refused(&book_with(Pair { tau_ji: [f64::NAN; 4], ..zeros })), Reason::PairNumber.at(pair_of_both));
    assert_eq!(refused(&book_with(Pair { alpha: [-0.3, 0.0], ..zeros })), Reason::AlphaNotPositive.into());
    // What the builder doesn't write: another j, and two alphas.
    let pair = |words: Words| [&STORED_BOOK[..3 * BLOCK], &words.seal()].concat();
    let words = Words::new(3).word(1, 0).word(2, 1);
    assert_eq!(refused(&Book::from(pair(words.clone().word(2, 2)))), Reason::PairBlock.at(pair_of_both));
    assert_eq!(refused(&Book::from(pair(words.float(11, 0.3)))), Reason::PairAlphas.at(pair_of_both));
}

#[test]
fn refusals_of_questions() {
    let excess = |t| ask(Task::ExcessAt { temperature: Kelvin(t) }, [0.5, 0.5]).unwrap_err();
    assert_eq!([excess(0.0), excess(f64::NAN)], [Reason::Temperature.into(); 2]);
    assert_eq!(ask(flash_at(T, Pascal(-1.0)), [0.5, 0.5]), Err(Reason::Pressure.into()));
    let feed = |z: [f64; 2]| ask(flash_at(T, P), z).unwrap_err();
    assert_eq!(feed([f64::INFINITY, 0.0]), Reason::NotFinite.into());
    assert_eq!(feed([1.5, -0.5]), Reason::FractionNegative.into());
    assert_eq!(feed([0.5, 0.4]), Reason::FractionSum.into());
    assert_eq!(split([0.5, 0.5], [0.0, 2.0], 200), Err(Reason::KNotPositive.into()));
    assert_eq!(split([0.5, 0.5], [0.5, 2.0], 1_000_001), Err(Reason::LimitHigh.into()));
    let with = |options: Options| ask(Task::TpFlash { temperature: T, pressure: P, options }, [0.5, 0.5]).unwrap_err();
    assert_eq!(with(Options { tolerance: 1e-5, ..options() }), Reason::Options.into());
    assert_eq!(with(Options { max_iterations: 0, ..options() }), Reason::LimitZero.into());
    assert_eq!(with(Options { max_iterations: 2, ..options() }), Reason::NotConverged.into());
    assert_eq!(ask(flash_at(Kelvin(273.15), P), [0.5, 0.5]), Err(Reason::TemperatureOutside.into()));
    assert_eq!(ask(flash_at(T, Pascal(99.0)), [0.5, 0.5]), Err(Reason::PressureOutside.into()));
    let bracket = Options { bracket: [Kelvin(400.0), Kelvin(450.0)], ..options() };
    assert_eq!(
        ask(Task::BubbleTemperature { pressure: P, options: bracket }, [0.5, 0.5]),
        Err(Reason::NotBracketed.into())
    );
    let apart = Question::new(flash_at(T, Pascal(400_000.0)), [0.5, 0.5]);
    assert_eq!(answer(&immiscible(), &apart), Err(Reason::LiquidUnstable.into()));
    assert_eq!(ask(Task::ExcessAt { temperature: Kelvin(1e-300) }, [0.5, 0.5]), Err(Reason::ResultNotFinite.into()));
}

#[test]
fn a_feed_of_another_length_is_not_asked() {
    let book = ethanol_water().unwrap();
    let refused = |entries| Some(Reason::FeedLength { entries, solvents: 2 }.into());
    assert_eq!(tp_flash(&book, [0.5, 0.5, 0.7], T, P, options()).err(), refused(3));
    assert_eq!(excess_at(&book, [1.0], T).err(), refused(1));
    assert_eq!(bubble_pressure(&book, UpToEight::default(), T).err(), refused(0));
    assert_eq!(ask(Task::BubblePressure { temperature: T }, [0.5, 0.5, 0.0]).err(), refused(3));
    let k_refused = Reason::KLength { entries: 3, solvents: 2 }.into();
    assert_eq!(rachford_rice(&book, [0.5, 0.5], [2.0, 0.5, 9.0], 200), Err(k_refused));
    // A book that has no count of solvents is the core's to refuse.
    assert_eq!(excess_at(&Book::from(&STORED_BOOK[..511]), [1.0], T), Err(Reason::BookLength.into()));
}

/// Mass fractions and molar masses (kg/mol) give what the mole fractions give that the core makes of them.
#[test]
fn a_feed_by_mass() {
    let (masses, w) = ([0.046_068_44, 0.018_015_28], [0.7, 0.3]);
    let book = weighed(masses);
    let parts = [w[0] / masses[0], w[1] / masses[1]];
    let moles = parts.map(|part| part / (parts[0] + parts[1]));
    let (temperature, pressure, options) = (T, P, options());
    let k = [1.2, 0.1].into();
    for task in [
        Task::ExcessAt { temperature },
        Task::BubblePressure { temperature },
        Task::DewPressure { temperature, options },
        Task::BubbleTemperature { pressure, options },
        Task::DewTemperature { pressure, options },
        Task::LiquidStability { temperature, options },
        Task::TpFlash { temperature, pressure, options },
        Task::RachfordRice { k, max_iterations: 200 },
        Task::RachfordRiceNegative { k, max_iterations: 200 },
    ] {
        let found = answer(&book, &Question::new(task, Feed::mass(w)));
        assert!(found.is_ok(), "task {}", task.number());
        assert_eq!(found, answer(&book, &Question::new(task, moles)), "task {}", task.number());
        assert_eq!(found, ask(task, moles), "task {}: a mole feed of the book without masses", task.number());
    }
    let bubble = bubble_pressure(&book, Feed::mass(w), T).unwrap();
    assert_eq!(bubble.liquid, moles.into(), "compositions of an answer are mole fractions");
}

/// A version 3 book is answered as that of version 2, its words exchanged are found, and a question is checked by its rule.
#[test]
fn running_sums() {
    let weighed = in_the_making().molar_masses([0.046_068_44, 0.018_015_28]);
    let [second, third] = [2, 3].map(|version| weighed.clone().version(version).build().unwrap());
    assert_eq!([second.rule(), third.rule()], [Rule::Plain, Rule::Running]);
    for feed in [Feed::from([0.5, 0.5]), Feed::mass([0.7, 0.3])] {
        let question = Question::new(flash_at(T, P), feed);
        assert!(matches!(answer(&third, &question), Ok(Answer::TpFlash(_))));
        assert_eq!(answer(&second, &question), answer(&third, &question));
        let mut room = [0; ANSWER_ROOM];
        for book in [&second, &third] {
            let other = if book.rule() == Rule::Plain { Rule::Running } else { Rule::Plain };
            let refused = answer_bytes(book.bytes(), &question.encode_by(other), &mut room);
            assert_eq!(refused, Err(Reason::QuestionBlock.into()));
            assert_eq!(answer_bytes(book.bytes(), &question.encode_by(book.rule()), &mut room), Ok(()));
            assert!(Block::of(&room, 0).unwrap().check_is_right_by(book.rule()));
            assert!(Answer::decode_by(book.rule(), &room, 2).is_ok_and(|answered| answered.is_ok()));
        }
    }
    // The first two coefficients of ethanol's vapor pressure.
    let exchanged = |book: &Book<'_>| {
        let (mut bytes, at) = (book.bytes().to_vec(), BLOCK + 8 * 8);
        bytes[at..at + 16].rotate_left(8);
        bubble_pressure(&Book::from(bytes), [0.5, 0.5], T).err()
    };
    let refused = Some(Reason::BookCheck.at(Place::Block(1)));
    assert_ne!(exchanged(&second), refused);
    assert_eq!(exchanged(&third), refused);
}

/// 38 ahead of 2 and 3, whatever the sums.
#[test]
fn versions_that_are_none() {
    for version in [0, 4, 1 << 32 | 3, u64::MAX] {
        for rule in [Rule::Plain, Rule::Running] {
            let head = Words::new(1).word(1, version).word(2, 2).seal_by(rule);
            let book = Book::from([&head[..], &STORED_BOOK[BLOCK..]].concat());
            assert_eq!((book.version(), book.rule()), (None, Rule::Plain));
            assert_eq!(excess_at(&book, [0.5, 0.5], T), Err(Reason::BookVersion.into()));
        }
    }
    let other = Words::new(2).word(1, 3).word(2, 2).seal();
    let book = Book::from([&other[..], &STORED_BOOK[BLOCK..]].concat());
    assert_eq!(excess_at(&book, [0.5, 0.5], T), Err(Reason::BookHead.into()));
}

/// Ethanol and water with these molar masses.
fn weighed(masses: [f64; 2]) -> Book<'static> {
    in_the_making().molar_masses(masses).build().unwrap()
}

#[test]
fn refusals_of_feeds_by_mass() {
    let asked = |book: &Book<'_>, w: [f64; 2]| tp_flash(book, Feed::mass(w), T, P, options()).unwrap_err();
    let good = weighed([0.046, 0.018]);
    assert_eq!(asked(&ethanol_water().unwrap(), [0.5, 0.5]), Reason::FeedKind.into());
    assert_eq!(asked(&good, [0.5, 0.4]), Reason::FractionSum.into());
    assert_eq!(asked(&good, [1.5, -0.5]), Reason::FractionNegative.into());
    assert_eq!(asked(&good, [f64::NAN, 1.0]), Reason::NotFinite.into());
    assert_eq!(asked(&weighed([5e-324, 0.018]), [1.0, 0.0]), Reason::NotNormalizable.into());
    for mass in [0.0, -0.018, f64::INFINITY, f64::NAN] {
        assert_eq!(asked(&weighed([0.046, mass]), [0.5, 0.5]), Reason::MolarMass.into());
        assert_eq!(excess_at(&weighed([mass, 0.018]), [0.5, 0.5], T), Err(Reason::MolarMass.into()));
    }
    let lengths = Some(Reason::FeedLength { entries: 3, solvents: 2 }.into());
    assert_eq!(excess_at(&good, Feed::mass([0.5, 0.5, 0.0]), T).err(), lengths);
}

/// Each task's own call gives what the general one gives.
#[test]
fn a_call_for_each_task() {
    let book = ethanol_water().unwrap();
    let z = [0.5, 0.5];
    let k: UpToEight<f64> = [1.2, 0.1].into();
    let (temperature, pressure, options) = (T, P, options());
    let asked = |task| ask(task, z);
    assert_eq!(excess_at(&book, z, T).map(Answer::Excess), asked(Task::ExcessAt { temperature }));
    assert_eq!(bubble_pressure(&book, z, T).map(Answer::BubblePressure), asked(Task::BubblePressure { temperature }));
    assert_eq!(
        dew_pressure(&book, z, T, options).map(Answer::DewPressure),
        asked(Task::DewPressure { temperature, options })
    );
    assert_eq!(
        bubble_temperature(&book, z, P, options).map(Answer::BubbleTemperature),
        asked(Task::BubbleTemperature { pressure, options })
    );
    assert_eq!(
        dew_temperature(&book, z, P, options).map(Answer::DewTemperature),
        asked(Task::DewTemperature { pressure, options })
    );
    assert_eq!(
        liquid_stability(&book, z, T, options).map(Answer::LiquidStability),
        asked(Task::LiquidStability { temperature, options })
    );
    assert_eq!(
        tp_flash(&book, z, T, P, options).map(Answer::TpFlash),
        asked(Task::TpFlash { temperature, pressure, options })
    );
    assert_eq!(
        rachford_rice(&book, z, k, 200).map(Answer::RachfordRice),
        asked(Task::RachfordRice { k, max_iterations: 200 })
    );
    assert_eq!(
        rachford_rice_negative(&book, z, k, 200).map(Answer::RachfordRiceNegative),
        asked(Task::RachfordRiceNegative { k, max_iterations: 200 })
    );
    assert_eq!(tp_flash(&book, z, Kelvin(100.0), P, options), Err(Reason::TemperatureOutside.into()));
}

#[test]
fn bytes_of_a_refused_call_stay() {
    let mut room: Vec<u8> = (0..ANSWER_ROOM + 9).map(|k| (7 * k + 3) as u8).collect();
    let before = room.clone();
    let mut put = |question: &[u8], length: usize, reason: Reason| {
        assert_eq!(answer_bytes(STORED_BOOK, question, &mut room[..length]), Err(reason.into()));
        assert_eq!(room, before);
    };
    put(STORED_QUESTION, ANSWER_ROOM - 1, Reason::AnswerShort);
    put(STORED_QUESTION, 0, Reason::AnswerShort);
    put(&[], ANSWER_ROOM, Reason::QuestionBlock);
    put(&STORED_QUESTION[1..], ANSWER_ROOM + 9, Reason::QuestionBlock);
    put(&Words::new(8).word(1, 10).seal(), ANSWER_ROOM, Reason::Task);
}

#[test]
fn any_alignment_gives_the_same_bytes() {
    let mut expected = [0; ANSWER_ROOM];
    answer_bytes(STORED_BOOK, STORED_QUESTION, &mut expected).unwrap();
    for shift in 0..8 {
        let pad = vec![0; shift];
        let (book, question) = ([&pad, STORED_BOOK].concat(), [&pad, STORED_QUESTION].concat());
        let mut room = vec![0; shift + ANSWER_ROOM];
        answer_bytes(&book[shift..], &question[shift..], &mut room[shift..]).unwrap();
        assert_eq!(room[shift..], expected);
    }
}

#[test]
fn threads_call_at_one_time() {
    let mut expected = [0; ANSWER_ROOM];
    answer_bytes(STORED_BOOK, STORED_QUESTION, &mut expected).unwrap();
    std::thread::scope(|scope| {
        for _ in 0..4 {
            scope.spawn(|| {
                for _ in 0..200 {
                    let mut room = [0; ANSWER_ROOM];
                    answer_bytes(STORED_BOOK, STORED_QUESTION, &mut room).unwrap();
                    assert_eq!(room, expected);
                }
            });
        }
    });
}
