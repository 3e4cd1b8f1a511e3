//! The readers on the reference: the borders of 1 and 10, what looks equal on the floor, what calls wrote, and striking.

mod common;

use std::collections::HashMap;

use reference::generate::cases::{sheets, Cases};
use reference::generate::readers::borders;
use reference::generate::Rng;
use reference::sheet::blocks::{bytes_of, words_of, Words, BLOCK};
use reference::sheet::readers::{floor, lab, write_floor, FLOOR_WORDS};
use reference::sheet::{self, pool, preview, program_output, ANSWER_BYTES};
use reference::stage::{Case, Stage};
use reference::strike::Sheet;
use reference::with::With;

fn slices(seed: u64, count: usize) -> impl Iterator<Item = Vec<u8>> {
    Cases::new(Stage::Readers, seed, false).take(count).map(|case| match case {
        Case::Readers { slice, .. } => slice,
        _ => panic!("a slice"),
    })
}

fn words(slice: &[u8]) -> Words {
    words_of(&slice[..BLOCK])
}

#[test]
fn borders_have_their_numbers() {
    for (case, number) in borders() {
        assert_eq!(case.expected().refusal, number, "{}", case.line());
    }
}

/// By the text of docs/FORMAT.md, word by word.
#[test]
fn the_22_words() {
    let mut of_task_1 = 0;
    for slice in slices(3, 40_000) {
        let Ok(found) = floor(&slice) else { continue };
        let words = words(&slice);
        let places = (1..=5).chain([11]).chain(14..=29);
        let due: Vec<u64> = places.map(|k| if words[1] == 1 && k > 5 { 0 } else { words[k] }).collect();
        assert_eq!(found.as_slice(), due);
        of_task_1 += usize::from(words[1] == 1 && words[14..30].iter().any(|word| *word != 0));
    }
    assert!(of_task_1 > 200, "{of_task_1}");
}

/// Read where a block of kind 9 stands first and as many of kind 10 as its word 12 says, up to eight; by both or by neither.
#[test]
fn what_is_read() {
    let (mut read, mut refused) = ([0; 9], 0);
    for slice in slices(5, 60_000) {
        let kinds: Vec<u64> = slice.chunks_exact(BLOCK).map(|block| words_of(block)[0]).collect();
        let trials = if kinds.is_empty() { 0 } else { words(&slice)[12] };
        let begins = kinds.first() == Some(&9)
            && trials <= 8
            && kinds.get(1..1 + trials as usize).is_some_and(|kinds| kinds.iter().all(|kind| *kind == 10));
        assert_eq!(floor(&slice).is_ok(), begins);
        assert_eq!(lab(&slice), if begins { Ok(&slice[..BLOCK * (1 + trials as usize)]) } else { Err(1) });
        if begins {
            read[trials as usize] += 1;
        } else {
            refused += 1;
        }
    }
    assert!(read.iter().all(|times| *times > 300) && refused > 8000, "{read:?} {refused}");
}

/// Two slices look equal exactly where they agree in words 1 to 5 and, outside task 1, in 11 and 14 to 29.
#[test]
fn what_looks_equal() {
    let mut seen: HashMap<[u64; FLOOR_WORDS], Words> = HashMap::new();
    let mut rng = Rng::new(7);
    let (mut equal, mut changed) = (0, [0; 64]);
    for slice in slices(7, 40_000) {
        let Ok(found) = floor(&slice) else { continue };
        let words = words(&slice);
        let agree =
            |a: &Words, b: &Words| a[1..6] == b[1..6] && (a[1] == 1 || (a[11] == b[11] && a[14..30] == b[14..30]));
        if let Some(other) = seen.insert(found, words) {
            assert!(agree(&words, &other));
            equal += usize::from(other != words);
        }
        // Another word in the answer's block, the trials left out.
        let at = rng.between(1, 63);
        let mut other = words;
        other[at] = rng.bits();
        other[12] = 0;
        let looks = floor(&bytes_of(&other)).expect("a block of kind 9");
        assert_eq!(looks == found, agree(&words, &other), "word {at}");
        changed[at] += 1;
    }
    assert!(equal > 1000 && changed[1..].iter().all(|times| *times > 200), "{equal} {changed:?}");
}

/// What stands behind isn't read: the lab's part, with anything behind it, has the same two sheets. Checks aren't tested.
#[test]
fn behind_and_checks() {
    let mut rng = Rng::new(11);
    let mut tried = 0;
    for slice in slices(11, 20_000) {
        let Ok(part) = lab(&slice) else { continue };
        let mut other = part.to_vec();
        other.extend((0..rng.below(600)).map(|_| rng.bits() as u8));
        assert_eq!((lab(&other), floor(&other)), (Ok(part), floor(&slice)));
        let blocks = part.len() / BLOCK;
        let at = BLOCK * (1 + rng.below(blocks)) - 1;
        other[at] ^= 1;
        assert_eq!((lab(&other).map(<[u8]>::len), floor(&other)), (Ok(part.len()), floor(&slice)));
        tried += 1;
    }
    assert!(tried > 10_000, "{tried}");
}

/// 1, then 10; the words behind the 22 stay, and with a number all do.
#[test]
fn words_written() {
    for (seed, slice) in slices(13, 4000).enumerate() {
        let room = seed % 26;
        let before: Vec<u64> = (0..room as u64).map(|k| k * 77 + 5).collect();
        let mut after = before.clone();
        let number = write_floor(&slice, &mut after);
        match floor(&slice) {
            Err(due) => assert_eq!((number, after), (due, before)),
            Ok(_) if room < FLOOR_WORDS => assert_eq!((number, after), (10, before)),
            Ok(found) => {
                assert_eq!((number, &after[..FLOOR_WORDS]), (0, &found[..]));
                assert_eq!(after[FLOOR_WORDS..], before[FLOOR_WORDS..]);
            }
        }
    }
}

/// The blocks that a call wrote to the front of a slice, and the slice.
fn written(call: impl Fn(&mut [u8]) -> u32) -> Option<(usize, Vec<u8>)> {
    let (mut one, mut other) = (vec![0x55; ANSWER_BYTES], vec![0xaa; ANSWER_BYTES]);
    (call(&mut one) == 0).then(|| {
        call(&mut other);
        (one.iter().zip(&other).take_while(|(a, b)| a == b).count(), one)
    })
}

/// The slice of every accepted call is read, and the lab's part is exactly the bytes that were written; so is the program's reply.
#[test]
fn what_calls_wrote() {
    let mut accepted = [0; 5];
    let mut look = |call: usize, found: Option<(usize, Vec<u8>)>| {
        if let Some((bytes, slice)) = found {
            assert_eq!(lab(&slice).map(<[u8]>::len), Ok(bytes));
            assert!(floor(&slice).is_ok());
            accepted[call] += 1;
        }
    };
    for (book, question) in sheets(17).take(4000) {
        look(0, written(|slice| sheet::answer(&book, &question, slice)));
        let reply = program_output(&book, &question);
        assert_eq!(lab(&reply), Ok(&reply[..]));
    }
    for stage in [Stage::Pooled, Stage::Preview] {
        for case in Cases::new(stage, 17, false).take(4000) {
            let Case::With { with, book, question, lent, .. } = case else { panic!("a sheet") };
            match with {
                With::Drums => look(1, written(|slice| pool::answer(&book, &question, &lent, slice))),
                _ => look(2, written(|slice| preview::answer(&book, &lent, &question, slice))),
            }
        }
    }
    for (call, stage) in [(3, Stage::Feeds), (4, Stage::Queue)] {
        for case in Cases::new(stage, 17, false).take(600) {
            let Case::With { with, book, question, lent, .. } = case else { panic!("feeds or a queue") };
            let mut slices = [0x55, 0xaa].map(|byte| vec![byte; ANSWER_BYTES * with.parts(&question, &lent)]);
            if slices.iter_mut().map(|slice| with.reference(&book, &question, &lent, slice)).any(|number| number != 0) {
                continue;
            }
            let [one, other] = slices;
            for (part, twin) in one.chunks(ANSWER_BYTES).zip(other.chunks(ANSWER_BYTES)) {
                let bytes = part.iter().zip(twin).take_while(|(a, b)| a == b).count();
                look(call, Some((bytes, part.to_vec())));
            }
        }
    }
    assert!(accepted.iter().all(|times| *times > 1500), "{accepted:?}");
}

/// Striking: the first six words, and each kept solvent's entries; +0 and −0 are equal.
#[test]
fn struck_floors() {
    let mut rng = Rng::new(19);
    let mut compared = [0; 10];
    let same = |a: u64, b: u64| a == b || (f64::from_bits(a) == 0.0 && f64::from_bits(b) == 0.0);
    for (book, question) in sheets(19).take(25_000) {
        let long = Sheet { book, question };
        let mut slice = vec![0; ANSWER_BYTES];
        if sheet::answer(&long.book, &long.question, &mut slice) != 0 || long.kept().len() == long.feed().len() {
            continue;
        }
        let kept = long.kept();
        let short = long.shorter(&mut rng, &kept);
        let mut shorter = vec![0; ANSWER_BYTES];
        assert_eq!(sheet::answer(&short.book, &short.question, &mut shorter), 0);
        let [a, b] = [&slice, &shorter].map(|slice| floor(slice).expect("an answer"));
        assert!((0..6).all(|k| same(a[k], b[k])));
        for from in [6, 14] {
            assert!(kept.iter().enumerate().all(|(place, i)| same(a[from + i], b[from + place])));
        }
        compared[a[0] as usize] += 1;
    }
    assert!(compared[1..].iter().all(|times| *times > 100), "{compared:?}");
}
