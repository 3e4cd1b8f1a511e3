//! A pair tried in place of the book's own: against the call on a copy of the book, and the offered block's numbers.

#[path = "../examples/ethanol_water/mod.rs"]
mod ethanol_water;

use ethanol_water::{ethanol_water, in_the_making};
use zektonk::{answer, answer_bytes, preview, preview_bytes};
use zektonk::{
    Book, Correlation, Feed, Interval, Kelvin, Model, Offered, Options, Pair, Pascal, Place, Question, Reason, Refusal,
    Rule, Solvent, Task, WilsonPair, Words, ANSWER_ROOM, BLOCK,
};

const STORED_BOOK: &[u8] = include_bytes!("../../../crates/still/data/book.bin");
const STORED_QUESTION: &[u8] = include_bytes!("../../../crates/still/stdin");

const FITTED: Pair = Pair {
    tau_ij: [0.1, -45.9, 0.0, 0.0],
    tau_ji: [0.2, 651.5, 0.0, 1e-4],
    alpha: [0.3, 1e-5],
    interval: Some(Interval { low: 340.0, high: 350.0, inferred: true }),
};

fn tasks() -> [Task; 9] {
    let (temperature, pressure, options) = (Kelvin(351.44), Pascal(90_000.0), Options::default());
    [
        Task::ExcessAt { temperature },
        Task::BubblePressure { temperature },
        Task::DewPressure { temperature, options },
        Task::BubbleTemperature { pressure, options },
        Task::DewTemperature { pressure, options },
        Task::LiquidStability { temperature, options },
        Task::TpFlash { temperature, pressure, options },
        Task::RachfordRice { k: [2.0, 0.5].into(), max_iterations: 200 },
        Task::RachfordRiceNegative { k: [1.2, 0.1].into(), max_iterations: 200 },
    ]
}

/// Block `at` of a book.
fn block(book: &Book<'_>, at: usize) -> Offered {
    Offered::from(*book.block(at).unwrap().bytes())
}

#[test]
fn every_task_answers_as_the_plain_call_on_the_copy() {
    let weighed = in_the_making().molar_masses([0.046, 0.018]);
    let books = [ethanol_water().unwrap(), weighed.build().unwrap(), weighed.version(2).build().unwrap()];
    for book in &books {
        let before = book.bytes().to_vec();
        let offered = Offered::pair(book.rule(), 0, 1, &FITTED);
        let copy = Book::from([&book.bytes()[..3 * BLOCK], offered.bytes()].concat());
        for task in tasks() {
            for feed in [Feed::from([0.5, 0.5]), [0.1, 0.9].into(), [1.0, 0.0].into(), Feed::mass([0.7, 0.3])] {
                let question = Question::new(task, feed);
                let found = preview(book, &offered, &question);
                assert_eq!(found, answer(&copy, &question), "{task:?}");
                // A pair shows where both its solvents are there, and in task 1, which has ln γ of absent ones too; in a
                // split by given K values none does.
                let both = task.number() == 1 || feed.fractions()[1] != 0.0;
                let shows = task.number() < 8 && both && found.is_ok();
                assert_eq!(found != answer(book, &question), shows, "{task:?} {feed:?}");
                assert_eq!(preview(book, &block(book, 3), &question), answer(book, &question));
            }
        }
        assert_eq!(book.bytes(), before);
    }
}

fn three(model: Model) -> Book<'static> {
    let terms = [(-7.5, 1.0).into()].into();
    let record = Correlation { t_r: 600.0, reducing_value: 5e6, range: [273.16, 500.0], terms };
    let solvent = |cas| Solvent { cas, vapor_pressure: record, density: record };
    let made =
        (1..=3).fold(Book::builder().model(model).molar_masses([0.1, 0.2, 0.3]), |b, cas| b.solvent(solvent(cas)));
    [(0, 1), (0, 2), (1, 2)]
        .iter()
        .fold(made, |made, (i, j)| match model {
            Model::Wilson => made.wilson_pair(*i, *j, WilsonPair { ij: [0.1, 20.0], ji: [0.2, 30.0], interval: None }),
            _ => made.pair(*i, *j, Pair { interval: None, ..FITTED }),
        })
        .build()
        .unwrap()
}

#[test]
fn each_pair_stands_in_its_own_place() {
    let wilson = WilsonPair { ij: [-0.4, 100.0], ji: [0.3, -80.0], interval: None };
    for model in [Model::Nrtl, Model::Wilson] {
        let book = three(model);
        let question = Question::new(tasks()[0], [0.2, 0.3, 0.5]);
        for (at, (i, j)) in [(4, (0, 1)), (5, (0, 2)), (6, (1, 2))] {
            let offered = match model {
                Model::Wilson => Offered::wilson_pair(book.rule(), i, j, &wilson),
                _ => Offered::pair(book.rule(), i, j, &Pair { tau_ij: [2.0, 0.0, 0.0, 0.0], ..FITTED }),
            };
            let mut copy = book.bytes().to_vec();
            copy[BLOCK * at..][..BLOCK].copy_from_slice(offered.bytes());
            let found = preview(&book, &offered, &question);
            assert_eq!(found, answer(&Book::from(copy), &question));
            assert!(found.is_ok() && found != answer(&book, &question));
        }
    }
}

/// The reason, of a refusal whose place is the offered block.
fn of_the_offered(refusal: Refusal) -> Reason {
    assert_eq!(refusal.place, Place::Offered, "{refusal}");
    refusal.reason
}

/// Each with one thing wrong, by the rule of the book.
#[test]
fn numbers_of_the_offered_block() {
    for book in [ethanol_water().unwrap(), in_the_making().molar_masses([0.046, 0.018]).build().unwrap()] {
        let rule = book.rule();
        let other = if rule == Rule::Plain { Rule::Running } else { Rule::Plain };
        let question = Question::new(tasks()[6], [0.5, 0.5]);
        let refused = |offered: Offered| preview(&book, &offered, &question).err().map(of_the_offered);
        let words = |kind, i, j| Words::new(kind).word(1, i).word(2, j).floats(11, &[0.3, 0.0, 0.3, 0.0]);
        let sealed = |words: Words| Offered::from(words.seal_by(rule));
        assert_eq!(refused(sealed(words(3, 0, 1))), None);
        assert_eq!(refused(Offered::from(words(3, 0, 1).seal_by(other))), Some(Reason::BookCheck));
        for (kind, i, j) in [(2, 0, 1), (3, 1, 0), (3, 0, 0), (3, 1, 1), (3, 0, 2), (3, 1, 2), (3, 0, u64::MAX)] {
            assert_eq!(refused(sealed(words(kind, i, j))), Some(Reason::PairBlock), "{kind} {i} {j}");
        }
        for flag in [15, 18] {
            assert_eq!(refused(sealed(words(3, 0, 1).word(flag, 1))), None);
            assert_eq!(refused(sealed(words(3, 0, 1).word(flag, 2))), Some(Reason::PairBlock));
        }
        for at in 3..=14 {
            assert_eq!(refused(sealed(words(3, 0, 1).float(at, f64::NAN))), Some(Reason::PairNumber), "{at}");
        }
        for at in [16, 17] {
            // A bound counts where there is an interval.
            assert_eq!(refused(sealed(words(3, 0, 1).float(at, f64::INFINITY))), None);
            let flagged = words(3, 0, 1).word(15, 1).float(at, f64::INFINITY);
            assert_eq!(refused(sealed(flagged)), Some(Reason::PairNumber));
        }
        for at in 11..=14 {
            assert_eq!(refused(sealed(words(3, 0, 1).float(at, 0.4))), Some(Reason::PairAlphas), "{at}");
        }
        // -0 and +0 are equal as floats.
        assert_eq!(refused(sealed(words(3, 0, 1).float(12, -0.0))), None);
    }
}

#[test]
fn a_wilson_book_reads_no_alphas() {
    let book = three(Model::Wilson);
    let question = Question::new(tasks()[0], [0.2, 0.3, 0.5]);
    let offered = |at| {
        let words = Words::new(3).word(1, 0).word(2, 1).floats(3, &[0.1, 20.0, 0.2, 30.0]);
        Offered::from(words.float(at, f64::NAN).seal_by(book.rule()))
    };
    for at in 3..=6 {
        assert_eq!(preview(&book, &offered(at), &question), Err(Reason::PairNumber.at(Place::Offered)));
    }
    for at in 7..=14 {
        assert_eq!(preview(&book, &offered(at), &question), answer(&book, &question));
    }
}

#[test]
fn a_book_of_one_solvent_has_no_pair() {
    let terms = [(-7.5, 1.0).into()].into();
    let record = Correlation { t_r: 600.0, reducing_value: 5e6, range: [273.16, 500.0], terms };
    let book = Book::builder().solvent(Solvent { cas: 1, vapor_pressure: record, density: record }).build().unwrap();
    let question = Question::new(tasks()[1], [1.0]);
    assert!(answer(&book, &question).is_ok());
    for (i, j) in [(0, 0), (0, 1), (1, 2)] {
        let offered = Offered::pair(book.rule(), i, j, &FITTED);
        assert_eq!(preview(&book, &offered, &question), Err(Reason::PairBlock.at(Place::Offered)));
    }
}

#[test]
fn the_order_of_numbers_and_bytes_that_stay() {
    let mut room: Vec<u8> = (0..ANSWER_ROOM + 9).map(|k| (7 * k + 3) as u8).collect();
    let before = room.clone();
    let mut put = |book: &[u8], offered: &[u8], question: &[u8], length: usize, refusal: Refusal| {
        assert_eq!(preview_bytes(book, offered, question, &mut room[..length]), Err(refusal));
        assert!(room == before);
    };
    let good = &STORED_BOOK[3 * BLOCK..];
    let unsealed = Words::new(3).word(1, 9).word(62, 1).seal_by(Rule::Running);
    // The book's own pair counts even where it is to be replaced.
    let mut damaged = STORED_BOOK.to_vec();
    damaged[3 * BLOCK + 8 * 15] = 2;
    damaged[4 * BLOCK - 8] = damaged[4 * BLOCK - 8].wrapping_add(1);
    put(&damaged, good, STORED_QUESTION, ANSWER_ROOM, Reason::PairBlock.at(Place::Block(3)));
    put(&STORED_BOOK[1..], &[], &[], 0, Reason::BookLength.into());
    for length in [0, 1, BLOCK - 1] {
        put(STORED_BOOK, &good[..length], &[], 0, Reason::BookLength.at(Place::Offered));
    }
    put(STORED_BOOK, &[good, &[0]].concat(), &[], 0, Reason::BookLength.at(Place::Offered));
    put(STORED_BOOK, &[good, good].concat(), &[], 0, Reason::BookLength.at(Place::Offered));
    put(STORED_BOOK, &unsealed, &[], 0, Reason::BookCheck.at(Place::Offered));
    put(STORED_BOOK, &Words::new(3).float(3, f64::NAN).seal(), &[], 0, Reason::PairBlock.at(Place::Offered));
    let uneven = Words::new(3).word(2, 1).float(11, 1.0);
    put(STORED_BOOK, &uneven.clone().float(3, f64::NAN).seal(), &[], 0, Reason::PairNumber.at(Place::Offered));
    put(STORED_BOOK, &uneven.seal(), &[], 0, Reason::PairAlphas.at(Place::Offered));
    put(STORED_BOOK, good, &[], ANSWER_ROOM - 1, Reason::AnswerShort.into());
    put(STORED_BOOK, good, &STORED_QUESTION[1..], ANSWER_ROOM, Reason::QuestionBlock.into());
    put(STORED_BOOK, good, &Words::new(8).word(1, 10).seal(), ANSWER_ROOM + 9, Reason::Task.into());
    let mut alone = before.clone();
    answer_bytes(STORED_BOOK, STORED_QUESTION, &mut alone).unwrap();
    preview_bytes(STORED_BOOK, good, STORED_QUESTION, &mut room).unwrap();
    assert!(room == alone);
}

#[test]
fn what_the_crate_refuses() {
    let book = ethanol_water().unwrap();
    let offered = Offered::pair(book.rule(), 0, 1, &FITTED);
    let question = Question::new(tasks()[0], [1.0]);
    assert_eq!(preview(&book, &offered, &question), Err(Reason::FeedLength { entries: 1, solvents: 2 }.into()));
    assert_eq!(preview(&Book::from(&[][..]), &offered, &question), Err(Reason::BookLength.into()));
}
