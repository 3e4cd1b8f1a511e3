//! Sentences on the reference: some by hand, those of all places of a book, the largest words, and what is written.

use reference::generate::sentences::borders;
use reference::sheet::place::Place::{self, Block, Nowhere, Offered, Pair};
use reference::sheet::sentence::{matter, sentence, write, LAST_NUMBER, SENTENCE_ROOM};
use reference::stage::Case;

#[test]
fn by_hand() {
    for (number, place, due) in [
        (4, Block(3), "4: a solvent's kind, place, CAS number or count of terms is wrong (block 3)."),
        (6, Pair(0, 3), "6: two solvents of the book have one CAS number (solvents 0 and 3)."),
        (8, Offered, "8: a pair has a number that is not finite (the offered block)."),
        (13, Nowhere, "13: the temperature is not finite and positive."),
        (39, Nowhere, "39: there are not 1 to 64 whole questions in the queue, or one of them is not a flash."),
        // Left out.
        (6, Block(3), "6: two solvents of the book have one CAS number."),
        (13, Block(3), "13: the temperature is not finite and positive."),
        (4, Offered, "4: a solvent's kind, place, CAS number or count of terms is wrong."),
        (9, Pair(1, 2), "9: a pair's two alphas are not equal."),
    ] {
        assert_eq!(sentence(number, place), due);
    }
}

/// None, offered, blocks and pairs, of any size.
fn places() -> Vec<Place> {
    let words = || (0..=40).chain([99, 100, 999, 1000, u64::MAX - 1, u64::MAX]);
    let pairs = words().flat_map(|i| words().map(move |j| Pair(i, j)));
    [Nowhere, Offered].into_iter().chain(words().map(Block)).chain(pairs).collect()
}

/// Of every number, with the places that it can have.
fn all() -> Vec<(u64, Place)> {
    let of =
        |number: u64| places().into_iter().filter(move |place| place.is_of(number)).map(move |place| (number, place));
    (1..=LAST_NUMBER).flat_map(of).collect()
}

#[test]
fn each_fits_and_begins_with_its_number() {
    for (number, place) in all() {
        let sentence = sentence(number, place);
        assert!(sentence.len() <= SENTENCE_ROOM, "{sentence}");
        assert!(sentence.bytes().all(|byte| (b' '..=b'~').contains(&byte)), "{sentence}");
        let digits = sentence.bytes().take_while(u8::is_ascii_digit).count();
        assert_eq!(sentence[..digits].parse(), Ok(number));
    }
}

/// Sorted, what begins with a sentence stands right behind it.
#[test]
fn none_begins_another() {
    let mut sentences: Vec<String> = all().into_iter().map(|(number, place)| sentence(number, place)).collect();
    sentences.sort();
    assert!(sentences.windows(2).all(|two| !two[1].starts_with(&two[0])));
    assert!(sentences.len() > 2500);
}

#[test]
fn what_they_are_about() {
    let matters: Vec<&str> = (1..=LAST_NUMBER).map(matter).collect();
    for (k, one) in matters.iter().enumerate() {
        assert!(!one.is_empty() && !one.ends_with('.') && !matters[..k].contains(one));
    }
}

/// 1, then 10; the bytes behind stay, and with a number all do.
#[test]
fn bytes_written() {
    for number in [0, 1, 6, 39, 40, u64::MAX] {
        for room in [0, 1, 159, 160, 161, 4096] {
            let place = Pair(1, 2).words();
            let (mut text, mut length) = (vec![0xee; room], 77);
            let found = write(number, &place, &mut text, &mut length);
            let due = match number {
                1..=39 if room >= SENTENCE_ROOM => 0,
                1..=39 => 10,
                _ => 1,
            };
            assert_eq!(found, due);
            let mut sentence = if due == 0 { sentence(number, Pair(1, 2)).into_bytes() } else { Vec::new() };
            assert_eq!(length, if due == 0 { sentence.len() as u64 } else { 77 });
            sentence.resize(room, 0xee);
            assert_eq!(text, sentence);
        }
    }
}

#[test]
fn borders_have_their_numbers() {
    let mut seen = [0; 11];
    for case in borders() {
        let Case::Sentence { number, room, .. } = case else { panic!("a sentence") };
        let due = if !(1..=39).contains(&number) { 1 } else { 10 * u32::from(room < 160) };
        assert_eq!(case.expected().refusal, due);
        seen[due as usize] += 1;
    }
    assert!([0, 1, 10].iter().all(|number| seen[*number] > 100));
}
