//! The sheet of docs/FORMAT.md: book and question in, answer and trial blocks or a refusal number out.

pub mod anew;
pub mod blocks;
pub mod book;
pub mod distance;
pub mod feeds;
pub mod place;
pub mod pool;
pub mod preview;
pub mod question;
pub mod queue;
pub mod readers;
pub mod reply;
pub mod sentence;

pub use book::{open_book, Book};

use blocks::{bytes_of, rule_of, seal, Words, BLOCK};
use question::Question;

/// One answer block and eight trials.
pub const ANSWER_BYTES: usize = 9 * BLOCK;

/// 0 and the blocks written to the front of `answer`, or the refusal number and `answer` untouched.
pub fn answer(book: &[u8], question: &[u8], answer: &mut [u8]) -> u32 {
    let found = blocks_of(book, question, answer.len());
    written(answer, found)
}

fn written(answer: &mut [u8], found: Result<Vec<Words>, u32>) -> u32 {
    match found {
        Ok(blocks) => {
            for (place, block) in answer.chunks_exact_mut(BLOCK).zip(&blocks) {
                place.copy_from_slice(&bytes_of(block));
            }
            0
        }
        Err(number) => number,
    }
}

fn blocks_of(book: &[u8], question: &[u8], room: usize) -> Result<Vec<Words>, u32> {
    let (book, question) = opened(book, question, room)?;
    let feed = question.ask(&book)?;
    replied(&book, &question, &feed)
}

/// Questions 1 to 12 and those put among them.
fn opened(book: &[u8], question: &[u8], room: usize) -> Result<(Book, Question), u32> {
    let book = open_book(book)?;
    if room < ANSWER_BYTES {
        return Err(10);
    }
    let question = Question::read(question, book.rule)?;
    if !(1..=9).contains(&question.task()) {
        return Err(12);
    }
    Ok((book, question))
}

fn replied(book: &Book, question: &Question, feed: &[f64]) -> Result<Vec<Words>, u32> {
    let mut blocks = reply::reply(book, question, feed).map_err(|error| error.number())?;
    blocks.iter_mut().for_each(|block| seal(block, book.rule));
    Ok(blocks)
}

/// What the program reads of book.bin: a block more than any book has.
fn read_of(book: &[u8]) -> &[u8] {
    &book[..book.len().min(38 * BLOCK)]
}

/// The line that the program writes to standard error with this number; nothing with an answer.
pub fn program_errors(book: &[u8], number: u32) -> Vec<u8> {
    match number {
        0 => Vec::new(),
        _ => format!("{}\n", sentence::sentence(number.into(), place::of(read_of(book), number))).into_bytes(),
    }
}

/// What the program writes for the bytes of book.bin and of its standard input.
pub fn program_output(book: &[u8], question: &[u8]) -> Vec<u8> {
    let book = read_of(book);
    let question = &question[..question.len().min(BLOCK + 1)];
    let blocks = match blocks_of(book, question, ANSWER_BYTES) {
        Ok(blocks) => blocks,
        Err(number) => vec![refusal_block(book, question, number)],
    };
    blocks.iter().flat_map(bytes_of).collect()
}

/// Words 0, 1, 2 and the check; task 0 for numbers 1 to 12, 35, 37 and 38.
fn refusal_block(book: &[u8], question: &[u8], number: u32) -> Words {
    let task = if matches!(number, 0..=12 | 35 | 37 | 38) { 0 } else { blocks::words_of(question)[1] };
    let mut words = [0; 64];
    words[..3].copy_from_slice(&[9, task, number.into()]);
    seal(&mut words, rule_of(book));
    words
}
