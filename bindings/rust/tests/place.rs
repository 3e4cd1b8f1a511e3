//! Where a book said no, through each of the calls, and what is said of it.

use zektonk::format::kind;
use zektonk::{
    answer_bytes, distance_bytes, feeds_bytes, pooled_bytes, preview_bytes, queue_bytes, sentence_bytes, Block, Book,
    Correlation, Kelvin, Options, Pair, Pascal, Place, Question, Reason, Refusal, Rule, Solvent, Task, Words,
    ANSWER_ROOM, BLOCK, DRUM_BYTES, FEED_BYTES, SENTENCE_ROOM,
};

const PAIR: Pair = Pair { tau_ij: [0.1; 4], tau_ji: [0.2; 4], alpha: [0.3, 0.0], interval: None };

/// Of eight solvents, all of one vapor pressure.
fn eight() -> Book<'static> {
    let terms = [(-7.5, 1.0).into()].into();
    let record = Correlation { t_r: 600.0, reducing_value: 5e6, range: [273.16, 500.0], terms };
    let solvent = |cas| Solvent { cas, vapor_pressure: record, density: record };
    let made = (1..=8).fold(Book::builder().molar_masses([0.1; 8]), |made, cas| made.solvent(solvent(cas)));
    pairs().fold(made, |made, (i, j)| made.pair(i, j, PAIR)).build().unwrap()
}

fn pairs() -> impl Iterator<Item = (usize, usize)> {
    (0..8).flat_map(|i| (i + 1..8).map(move |j| (i, j)))
}

/// With these words (block, place, word) in it; the checks right again, or those of before.
fn with(book: &Book<'_>, words: &[(usize, usize, u64)], sealed: bool) -> Vec<u8> {
    let mut bytes = book.bytes().to_vec();
    for (block, at, word) in words {
        bytes[BLOCK * block + 8 * at..][..8].copy_from_slice(&word.to_le_bytes());
    }
    if sealed {
        for block in bytes.chunks_exact_mut(BLOCK) {
            let words: Vec<u64> = (1..63).map(|at| Block::of(block, 0).unwrap().word(at)).collect();
            let first = Words::new(Block::of(block, 0).unwrap().word(0));
            let whole = (1..63).zip(words).fold(first, |made, (at, word)| made.word(at, word));
            block.copy_from_slice(&whole.seal_by(Rule::Running));
        }
    }
    bytes
}

/// What each call says to a book: the same.
fn refused(book: &[u8]) -> Refusal {
    let task = Task::TpFlash { temperature: Kelvin(350.0), pressure: Pascal(90e3), options: Options::default() };
    let question = Question::new(task, [0.125; 8]).encode_by(Rule::Running);
    let mut room = [0; ANSWER_ROOM];
    let found = [
        answer_bytes(book, &question, &mut room),
        pooled_bytes(book, &question, &[1; DRUM_BYTES], &mut room),
        feeds_bytes(book, &question, &[0; FEED_BYTES], &mut room),
        preview_bytes(book, &[], &question, &mut room),
        queue_bytes(book, &question, 99, &mut room),
        distance_bytes(book, &question).map(|_| ()),
    ];
    assert!(room.iter().all(|byte| *byte == 0));
    assert_eq!(found, [found[0]; 6]);
    found[0].unwrap_err()
}

#[test]
fn the_lowest_block_that_says_no() {
    let (book, odd) = (eight(), f64::INFINITY.to_bits());
    for at in 0..37 {
        let others = [(36, 5, 77), (at, 5, 77), (36 - (36 - at) / 2, 5, 77)];
        assert_eq!(refused(&with(&book, &others, false)), Reason::BookCheck.at(Place::Block(at)));
    }
    for at in 1..=8 {
        let place = Place::Block(at);
        assert_eq!(refused(&with(&book, &[(8, 0, 9), (at, 0, 9)], true)), Reason::SolventBlock.at(place));
        assert_eq!(refused(&with(&book, &[(8, 3, odd), (at, 3, odd)], true)), Reason::SolventNumber.at(place));
    }
    for at in 9..37 {
        let place = Place::Block(at);
        assert_eq!(refused(&with(&book, &[(36, 0, 9), (at, 0, 9)], true)), Reason::PairBlock.at(place));
        assert_eq!(refused(&with(&book, &[(36, 3, odd), (at, 3, odd)], true)), Reason::PairNumber.at(place));
        assert_eq!(refused(&with(&book, &[(36, 12, 1), (at, 12, 1)], true)), Reason::PairAlphas.at(place));
    }
}

#[test]
fn the_first_pair_of_equal_numbers() {
    let book = eight();
    for (i, j) in pairs() {
        let twice = Reason::SolventTwice.at(Place::Pair(i, j));
        assert_eq!(refused(&with(&book, &[(1 + j, 2, i as u64 + 1)], true)), twice);
    }
    // Solvents 1 and 2, and 0 and 3: the latter stand ahead.
    let both = with(&book, &[(3, 2, 2), (4, 2, 1)], true);
    assert_eq!(refused(&both), Reason::SolventTwice.at(Place::Pair(0, 3)));
}

#[test]
fn numbers_without_a_place() {
    let book = eight();
    for (bytes, reason) in [
        (book.bytes()[1..].to_vec(), Reason::BookLength),
        (with(&book, &[(0, 1, 4)], true), Reason::BookVersion),
        (book.bytes()[..36 * BLOCK].to_vec(), Reason::BookHead),
        (with(&book, &[(0, 3, 2)], true), Reason::BookModel),
        (with(&book, &[(5, 45, 0)], true), Reason::MolarMass),
    ] {
        assert_eq!(refused(&bytes), reason.into());
    }
}

/// Which of the two said no is said without a second call.
#[test]
fn the_offered_block() {
    let book = eight();
    let offered = with(&book, &[(20, 0, kind::SOLVENT)], true);
    let mut room = [0; ANSWER_ROOM];
    let mut put = |book: &[u8]| preview_bytes(book, &offered[20 * BLOCK..][..BLOCK], &[], &mut room);
    assert_eq!(put(book.bytes()), Err(Reason::PairBlock.at(Place::Offered)));
    assert_eq!(put(&offered), Err(Reason::PairBlock.at(Place::Block(20))));
}

#[test]
fn sentences() {
    let mut found = Vec::new();
    let mut places = vec![Place::Nowhere, Place::Offered, Place::Block(usize::MAX)];
    places.extend((0..41).map(Place::Block).chain(pairs().map(|(i, j)| Place::Pair(i, j))));
    for reason in Reason::ALL {
        for place in &places {
            let sentence = reason.at(*place).to_string();
            let mut text = [b'~'; SENTENCE_ROOM + 9];
            let length = sentence_bytes(reason.number().unwrap(), *place, &mut text).unwrap();
            assert_eq!(&text[..length], sentence.as_bytes());
            assert!(text[length..].iter().all(|byte| *byte == b'~') && length <= SENTENCE_ROOM);
            assert!(text[..length].iter().all(|byte| (b' '..=b'~').contains(byte)));
            let (number, _) = sentence.split_once(':').unwrap();
            assert_eq!(number.parse(), Ok(reason.number().unwrap()));
            found.push(sentence);
        }
    }
    // A place that its number can't have is left out; none of the others is the beginning of another.
    found.sort();
    found.dedup();
    assert_eq!(found.len(), 39 + 6 * 42 + 28 + 5);
    assert!(found.windows(2).all(|two| !two[1].starts_with(&two[0])));
}

#[test]
fn sentences_that_are_refused() {
    let mut text = [b'~'; SENTENCE_ROOM];
    for number in [0, 40, 1 << 32 | 5, u64::MAX] {
        for room in [0, SENTENCE_ROOM - 1, SENTENCE_ROOM] {
            let found = sentence_bytes(number, Place::Nowhere, &mut text[..room]);
            assert_eq!(found, Err(Reason::BookLength.into()));
        }
    }
    for room in [0, 1, SENTENCE_ROOM - 1] {
        assert_eq!(sentence_bytes(9, Place::Offered, &mut text[..room]), Err(Reason::AnswerShort.into()));
    }
    assert_eq!(text, [b'~'; SENTENCE_ROOM]);
}
