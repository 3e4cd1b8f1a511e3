//! Places on the reference: the borders, small books by hand, each block alone in a book of its own, what is mended, and rooms.

mod common;

use common::{blocks, bytes, put, Ask};
use reference::generate::cases::Cases;
use reference::generate::places::borders;
use reference::placed::{call_of, place_of};
use reference::sheet::blocks::{book_bytes, bytes_of, rule_of, seal, words_of, Words, BLOCK};
use reference::sheet::book::{due_pairs, MOLAR_MASS};
use reference::sheet::place::Place::{self, Block, Nowhere, Offered, Pair};
use reference::sheet::place::{of, of_preview, saying_no};
use reference::sheet::{open_book, ANSWER_BYTES};
use reference::stage::{bytes_as_words, Case, Stage};
use reference::with::With;

#[test]
fn borders_have_their_places() {
    let mut placed = 0;
    for border in borders() {
        let Case::Placed { asked, room } = &border.case else { panic!("a place") };
        let found = border.case.expected();
        let words = &found.words[found.words.len() - room..];
        // A Wilson book's alphas are not read: then its question goes on.
        let book_passes = found.refusal == 0 || (10..35).contains(&found.refusal);
        assert!(found.refusal == border.number || border.number == u32::MAX && book_passes, "{}", border.case.line());
        assert_eq!(place_of(asked, found.refusal), border.place, "{}", border.case.line());
        if *room >= 3 {
            assert_eq!(words[..3], border.place.words());
            placed += 1;
        }
    }
    assert!(placed > 3000, "{placed}");
}

/// Three solvents, with these words changed and all checks made right.
fn three(changes: &[(usize, usize, u64)]) -> Vec<u8> {
    let mut all = blocks(&[4e6, 1e6, 2e6], [0.4, 0.7]);
    for (block, at, word) in changes {
        all[*block][*at] = *word;
    }
    bytes(&all)
}

/// The place of the plain call, through all its words.
fn plain(book: &[u8], number: u32) -> Place {
    let question = Ask::new(1, &[0.2, 0.3, 0.5]).bytes_for(book);
    let asked = Case::Sheet { book: book.to_vec(), question, room: ANSWER_BYTES };
    let found = Case::Placed { asked: Box::new(asked), room: 4 }.expected();
    assert_eq!(found.refusal, number);
    Place::of(&found.words[found.words.len() - 4..])
}

/// Blocks 1 to 3 are solvents, 4 is (0, 1), 5 is (0, 2), 6 is (1, 2).
#[test]
fn small_books() {
    let nan = f64::NAN.to_bits();
    assert_eq!(plain(&three(&[]), 0), Nowhere);
    assert_eq!(plain(&three(&[(3, 0, 3), (2, 2, 0)]), 4), Block(2));
    assert_eq!(plain(&three(&[(3, 24, nan), (1, 4, 0)]), 5), Block(1));
    assert_eq!(plain(&three(&[(3, 2, 1001)]), 6), Pair(1, 2));
    assert_eq!(plain(&three(&[(2, 2, 1002), (3, 2, 1002), (1, 2, 1002)]), 6), Pair(0, 1));
    assert_eq!(plain(&three(&[(6, 15, 2), (5, 1, 1)]), 7), Block(5));
    assert_eq!(plain(&three(&[(6, 3, nan), (4, 14, 9)]), 8), Block(6));
    assert_eq!(plain(&three(&[(5, 11, 0), (4, 14, 9)]), 9), Block(4));
    // The first question's, though another says no before it.
    assert_eq!(plain(&three(&[(1, 3, nan), (3, 1, 7), (4, 0, 2)]), 4), Block(3));
    let mut book = three(&[]);
    book[BLOCK * 6 + 8] ^= 1;
    assert_eq!(plain(&book, 2), Block(6));
    book[BLOCK * 2 - 1] ^= 1;
    assert_eq!(plain(&book, 2), Block(1));
    for (changes, number) in [((0, 1, 4), 38), ((0, 2, 4), 3), ((0, 3, 1), 37)] {
        assert_eq!(plain(&three(&[changes]), number), Nowhere);
    }
    assert_eq!(plain(&[], 1), Nowhere);
}

/// By the later solvent, (1, 2) would come before (0, 3).
#[test]
fn the_first_of_two_pairs() {
    let mut all = blocks(&[4e6, 1e6, 2e6, 3e6], [0.0, 0.0]);
    (all[4][2], all[3][2]) = (all[1][2], all[2][2]);
    let book = bytes(&all);
    assert_eq!(open_book(&book).map(drop), Err(6));
    assert_eq!((of(&book, 6), saying_no(&book, 6)), (Pair(0, 3), vec![Pair(0, 3), Pair(1, 2)]));
}

#[test]
fn offered_blocks() {
    let book = three(&[]);
    let own = &book[BLOCK * 5..BLOCK * 6];
    let mut wrong = words_of(own);
    wrong[11] = 0;
    seal(&mut wrong, rule_of(&book));
    let wrong = bytes_of(&wrong);
    assert_eq!(of_preview(&book, &wrong, 9), Offered);
    assert_eq!(of_preview(&book, &own[1..], 1), Offered);
    assert_eq!(of_preview(&book, own, 13), Nowhere);
    // The book's own no stands before.
    assert_eq!(of_preview(&three(&[(6, 11, 0)]), &wrong, 9), Block(6));
    assert_eq!(of_preview(&three(&[(2, 2, 1000)]), &wrong, 6), Pair(0, 1));
}

fn generated(seed: u64, count: usize) -> impl Iterator<Item = (Case, u32)> {
    Cases::new(Stage::Place, seed, false).skip(borders().len()).take(count).map(|case| match case {
        Case::Placed { asked, .. } => {
            let Some((book, _)) = asked.sheet() else { panic!("a sheet") };
            let number = open_book(book).map_or_else(|number| number, |_| 0);
            (*asked, number)
        }
        _ => panic!("a place"),
    })
}

fn book_of(case: &Case) -> Vec<u8> {
    case.sheet().expect("a sheet").0.to_vec()
}

/// The block alone behind others that are right: one solvent, or two with their pair.
fn alone(book: &[u8], k: usize, number: u32) -> Result<(), u32> {
    let head = words_of(&book[..BLOCK]);
    let n = head[2] as usize;
    let mut words = words_of(&book[BLOCK * k..BLOCK * (k + 1)]);
    let renamed = |own: u64, due: usize, new: u64| if own == due as u64 { new } else { 99 };
    let mut small: Vec<Words> = blocks(if k <= n { &[4e6] } else { &[4e6, 1e6] }, [0.0, 0.0]);
    small[0] = head;
    small[0][2] = if k <= n { 1 } else { 2 };
    if k <= n {
        words[1] = renamed(words[1], k - 1, 0);
    } else {
        let (i, j) = due_pairs(n)[k - 1 - n];
        (words[1], words[2]) = (renamed(words[1], i, 0), renamed(words[2], j, 1));
    }
    *small.last_mut().expect("blocks") = words;
    let solvents = small[0][2] as usize;
    small[1..=solvents].iter_mut().for_each(|words| put(words, MOLAR_MASS, &[0.05]));
    match open_book(&book_bytes(&small)) {
        Err(found) if found == number => Err(found),
        _ => Ok(()),
    }
}

/// What a place names says no by itself, and none before it does.
#[test]
fn each_block_alone() {
    let mut tried = [0; 10];
    for (case, number) in generated(3, 30_000) {
        if ![4, 5, 7, 8, 9].contains(&number) {
            continue;
        }
        let book = book_of(&case);
        let Block(place) = of(&book, number) else { panic!("a block of {number}") };
        let n = words_of(&book[..BLOCK])[2] as usize;
        let first = if number < 6 { 1 } else { 1 + n };
        for k in first..=place as usize {
            let due = if k == place as usize { Err(number) } else { Ok(()) };
            assert_eq!(alone(&book, k, number), due, "{}", case.line());
        }
        tried[number as usize] += 1;
    }
    assert!([4, 5, 7, 8, 9].iter().all(|number| tried[*number] > 500), "{tried:?}");
}

/// Once the check at the place is made right, it is at the next wrong one, and then there is none.
#[test]
fn checks_mended_one_by_one() {
    let (mut tried, mut farthest) = (0, 0);
    for (case, number) in generated(5, 12_000) {
        if number != 2 {
            continue;
        }
        let mut book = book_of(&case);
        let rule = rule_of(&book);
        let mut last = None;
        while let Block(k) = of(&book, 2) {
            assert!(last < Some(k), "{}", case.line());
            last = Some(k);
            let place = &mut book[BLOCK * k as usize..BLOCK * (k as usize + 1)];
            let mut words = words_of(place);
            assert_ne!(words[63], reference::sheet::blocks::check_of(&words, rule));
            seal(&mut words, rule);
            place.copy_from_slice(&bytes_of(&words));
        }
        assert_ne!(open_book(&book).map(drop), Err(2));
        (tried, farthest) = (tried + 1, farthest.max(last.expect("one was wrong")));
    }
    assert!(tried > 1500 && farthest > 150, "{tried} {farthest}");
}

/// Two equal numbers at the place, and none equal in any pair before it.
#[test]
fn the_first_equal_pair() {
    let mut tried = 0;
    for (case, number) in generated(7, 12_000).filter(|(_, number)| *number == 6) {
        let book = book_of(&case);
        let n = words_of(&book[..BLOCK])[2] as usize;
        let cas = |i: usize| words_of(&book[BLOCK * (1 + i)..BLOCK * (2 + i)])[2];
        let first = due_pairs(n).into_iter().find(|(i, j)| cas(*i) == cas(*j)).expect("two are equal");
        assert_eq!(of(&book, number), Pair(first.0 as u64, first.1 as u64));
        tried += 1;
    }
    assert!(tried > 500, "{tried}");
}

/// A book that is refused has one place, whichever call is made; no number that isn't of blocks has any.
#[test]
fn numbers_with_a_place() {
    let mut seen = [[0; 4]; 40];
    let mut calls = [0; 6];
    for (case, number) in generated(11, 8000) {
        let found = case.expected().refusal;
        let place = place_of(&case, found);
        assert!(place.is_of(found.into()));
        if number != 0 {
            assert_eq!((found, place), (number, of(&book_of(&case), number)));
            assert_eq!(place == Nowhere, [1, 3, 35, 37, 38].contains(&number));
        } else {
            let offered = matches!(case, Case::With { with: With::Pair, .. }) && (1..10).contains(&found);
            assert_eq!(place, if offered { Offered } else { Nowhere });
        }
        seen[found as usize][place.words()[0] as usize] += 1;
        calls[call_of(&case)] += 1;
    }
    assert!([2, 4, 5, 7, 8, 9].iter().all(|number| seen[*number][1] > 100) && seen[6][2] > 100, "{seen:?}");
    assert!([1, 2, 7, 8, 9].iter().all(|number| seen[*number][3] > 10), "{seen:?}");
    assert!(calls.iter().all(|count| *count > 200), "{calls:?}");
}

/// Fewer than three words stay, and so do those behind.
#[test]
fn words_written() {
    let book = three(&[(6, 3, f64::NAN.to_bits())]);
    for room in 0..=6 {
        let asked = Case::Sheet { book: book.clone(), question: Vec::new(), room: 0 };
        let found = Case::Placed { asked: Box::new(asked.clone()), room }.expected();
        let mut due = bytes_as_words(&vec![0; 8 * room]);
        Block(6).write(&mut due);
        let before = |k: usize| (k as u64 + 1).wrapping_mul(0x9e37_79b9_7f4a_7c15);
        let from = if room < 3 { 0 } else { 3 };
        (from..room).for_each(|k| due[k] = before(k));
        assert_eq!(found.words, [vec![8], due].concat());
    }
}

#[test]
fn read_back() {
    for place in [Nowhere, Block(0), Block(36), Block(u64::MAX), Pair(0, 3), Pair(u64::MAX, 0), Offered] {
        assert_eq!(Place::of(&place.words()), place);
        assert_eq!(Place::of(&[&place.words()[..], &[5, 5]].concat()), place);
        assert_eq!(Place::of(&place.words()[..2]), Nowhere);
    }
    for kind in [0, 4, 1 << 32 | 1, u64::MAX] {
        assert_eq!(Place::of(&[kind, 1, 2]), Nowhere);
    }
}
