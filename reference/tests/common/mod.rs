//! Calls of the reference on small books and questions.
#![allow(dead_code, unused_imports)]

pub use reference::generate::small::{blocks, book, bytes, put, sealed, Ask};
pub use reference::sheet::blocks::Words;
use reference::sheet::blocks::{check_right, rule_of, words_of};
use reference::sheet::{self, ANSWER_BYTES};

/// The blocks written, or the number.
pub fn call(book: &[u8], ask: Ask) -> Result<Vec<Words>, u32> {
    let mut answer = vec![0xee; ANSWER_BYTES + 9];
    let number = sheet::answer(book, &ask.bytes_for(book), &mut answer);
    if number != 0 {
        assert!(answer.iter().all(|byte| *byte == 0xee));
        return Err(number);
    }
    let all: Vec<Words> = answer.chunks_exact(512).map(words_of).collect();
    let written = 1 + all[0][12] as usize;
    assert!(answer[512 * written..].iter().all(|byte| *byte == 0xee));
    assert!(all[..written].iter().all(|words| check_right(words, rule_of(book))));
    Ok(all[..written].to_vec())
}

pub fn answer(book: &[u8], ask: Ask) -> Words {
    call(book, ask).expect("an answer")[0]
}

pub fn floats(words: &Words, at: usize, n: usize) -> Vec<f64> {
    words[at..at + n].iter().map(|word| f64::from_bits(*word)).collect()
}

pub fn float(words: &Words, at: usize) -> f64 {
    f64::from_bits(words[at])
}
