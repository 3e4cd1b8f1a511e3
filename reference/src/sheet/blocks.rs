//! Blocks of 512 bytes: 64 little-endian words, the last one the check of the others.

pub const BLOCK: usize = 512;

pub type Words = [u64; 64];

/// What a check is of words 0 to 62, modulo 2^64.
#[derive(Debug, Clone, Copy, PartialEq, Eq)]
pub enum Rule {
    /// Their sum.
    Plain,
    /// The sum of the running sums after each of them.
    Running,
}

/// The rule of all blocks of a call, from its book: running sums where whole blocks begin with one of kind 1 and version 3.
pub fn rule_of(book: &[u8]) -> Rule {
    let whole = !book.is_empty() && book.len().is_multiple_of(BLOCK);
    if whole && words_of(&book[..BLOCK])[..2] == [1, 3] {
        Rule::Running
    } else {
        Rule::Plain
    }
}

pub fn words_of(block: &[u8]) -> Words {
    let mut words = [0; 64];
    for (word, bytes) in words.iter_mut().zip(block.chunks_exact(8)) {
        *word = u64::from_le_bytes(bytes.try_into().expect("eight bytes"));
    }
    words
}

pub fn bytes_of(words: &Words) -> [u8; BLOCK] {
    let mut block = [0; BLOCK];
    for (bytes, word) in block.chunks_exact_mut(8).zip(words) {
        bytes.copy_from_slice(&word.to_le_bytes());
    }
    block
}

/// Whether the last word of 512 bytes is the check of the others.
pub fn bytes_check_right(block: &[u8], rule: Rule) -> bool {
    let word = |bytes: &[u8]| u64::from_le_bytes(bytes.try_into().expect("eight bytes"));
    let (words, check) = block.split_at(BLOCK - 8);
    let words = words.chunks_exact(8).map(word);
    let sum = if rule == Rule::Plain { words.fold(0, u64::wrapping_add) } else { running(words) };
    sum == word(check)
}

// Apart, so that the plain sum stays a loop of its own.
#[inline(never)]
fn running(words: impl Iterator<Item = u64>) -> u64 {
    let (mut sum, mut all) = (0u64, 0u64);
    for word in words {
        sum = sum.wrapping_add(word);
        all = all.wrapping_add(sum);
    }
    all
}

/// The check of words 0 to 62.
pub fn check_of(words: &Words, rule: Rule) -> u64 {
    let words = words[..63].iter().copied();
    if rule == Rule::Plain {
        words.fold(0, u64::wrapping_add)
    } else {
        running(words)
    }
}

pub fn check_right(words: &Words, rule: Rule) -> bool {
    words[63] == check_of(words, rule)
}

pub fn seal(words: &mut Words, rule: Rule) {
    words[63] = check_of(words, rule);
}

/// A book's bytes, its checks made by the rule that its own block 0 asks for.
pub fn book_bytes(blocks: &[Words]) -> Vec<u8> {
    let rule = blocks.first().map_or(Rule::Plain, |head| rule_of(&bytes_of(head)));
    let sealed = blocks.iter().map(|words| {
        let mut words = *words;
        seal(&mut words, rule);
        bytes_of(&words)
    });
    sealed.flatten().collect()
}
