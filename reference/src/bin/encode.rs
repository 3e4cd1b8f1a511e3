//! Blocks of books and questions from plain numbers, one a line, as the reference lays them out and reads them back.
//!
//! `book` n; for each solvent its CAS number, then twice t_r, reducing value, low, high, count, coefficients, exponents;
//! for each pair τ_ij t0 to t3, τ_ji t0 to t3, a0, a1, then interval flag, low, high, inferred flag.
//! `massbook` is the same in version 2, with a molar mass behind each CAS number.
//! `wilsonbook` is a `massbook` of Wilson pairs: for each a_ij, b_ij, a_ji, b_ji, then interval flag, low, high, inferred flag.
//!
//! `question` task, T, P, eight fractions, M, tolerance, temperature limit, energy tolerance, threshold, low, high, eight K.
//! `massquestion` is the same by mass.
//!
//! `running` before any of these: checks are running sums, as version 3 has them, and books are of that version.

use std::io::{stdin, BufRead};
use std::process::ExitCode;
use std::str::{FromStr, SplitWhitespace};

use reference::generate::small::sealed_by;
use reference::sheet::blocks::{Rule, Words};
use reference::sheet::book::{due_pairs, open_book, DENSITY, MOLAR_MASS, NRTL, VAPOR_PRESSURE, WILSON};
use reference::sheet::question::{
    Question, BASIS, BRACKET, BY_MASS, BY_MOLES, ENERGY_TOLERANCE, FRACTIONS, K_VALUES, MAX_ITERATIONS,
    MAX_TEMPERATURE_ITERATIONS, PRESSURE, TASK, TEMPERATURE, TM_THRESHOLD, TOLERANCE,
};
use reference::stage::hex_bytes;

fn main() -> ExitCode {
    for line in stdin().lock().lines() {
        let Some(bytes) = line.ok().and_then(|line| encoded(&line)) else {
            eprintln!("encode: a line is not a book or a question that the reference reads back");
            return ExitCode::from(2);
        };
        let mut out = String::new();
        hex_bytes(&mut out, &bytes);
        println!("{}", out.trim_start());
    }
    ExitCode::SUCCESS
}

fn encoded(line: &str) -> Option<Vec<u8>> {
    let (rule, line) = match line.strip_prefix("running ") {
        Some(rest) => (Rule::Running, rest),
        None => (Rule::Plain, line),
    };
    let mut numbers = Numbers(line.split_whitespace());
    let blocks = match numbers.0.next()? {
        "book" if rule == Rule::Plain => book(&mut numbers, 1, NRTL)?,
        "massbook" => book(&mut numbers, if rule == Rule::Plain { 2 } else { 3 }, NRTL)?,
        "wilsonbook" => book(&mut numbers, if rule == Rule::Plain { 2 } else { 3 }, WILSON)?,
        "question" => vec![question(&mut numbers, BY_MOLES)?],
        "massquestion" => vec![question(&mut numbers, BY_MASS)?],
        _ => return None,
    };
    let bytes: Vec<u8> = blocks.into_iter().flat_map(|words| sealed_by(rule, words)).collect();
    let read_back = if bytes[0] == 8 { Question::read(&bytes, rule).is_ok() } else { open_book(&bytes).is_ok() };
    (read_back && numbers.0.next().is_none()).then_some(bytes)
}

struct Numbers<'a>(SplitWhitespace<'a>);

impl Numbers<'_> {
    fn next<T: FromStr>(&mut self) -> Option<T> {
        self.0.next()?.parse().ok()
    }

    fn floats(&mut self, words: &mut Words, at: usize, count: usize) -> Option<()> {
        for word in words[at..at + count].iter_mut() {
            *word = self.next::<f64>()?.to_bits();
        }
        Some(())
    }
}

fn book(numbers: &mut Numbers, version: u64, model: u64) -> Option<Vec<Words>> {
    let n: usize = numbers.next()?;
    let mut head = [0; 64];
    head[..4].copy_from_slice(&[1, version, n as u64, model]);
    let mut blocks = vec![head];
    for i in 0..n {
        blocks.push(solvent(numbers, i as u64, version)?);
    }
    for (i, j) in due_pairs(n) {
        blocks.push(pair(numbers, i as u64, j as u64, model)?);
    }
    Some(blocks)
}

fn solvent(numbers: &mut Numbers, i: u64, version: u64) -> Option<Words> {
    let mut words = [0; 64];
    words[..3].copy_from_slice(&[2, i, numbers.next()?]);
    if version > 1 {
        numbers.floats(&mut words, MOLAR_MASS, 1)?;
    }
    for at in [VAPOR_PRESSURE, DENSITY] {
        numbers.floats(&mut words, at, 4)?;
        let count: usize = numbers.next().filter(|count| *count <= 8)?;
        words[at + 4] = count as u64;
        numbers.floats(&mut words, at + 5, count)?;
        numbers.floats(&mut words, at + 13, count)?;
    }
    Some(words)
}

fn pair(numbers: &mut Numbers, i: u64, j: u64, model: u64) -> Option<Words> {
    let mut words = [0; 64];
    words[..3].copy_from_slice(&[3, i, j]);
    if model == WILSON {
        numbers.floats(&mut words, 3, 4)?;
    } else {
        numbers.floats(&mut words, 3, 10)?;
        words.copy_within(11..13, 13);
    }
    words[15] = numbers.next()?;
    numbers.floats(&mut words, 16, 2)?;
    words[18] = numbers.next()?;
    Some(words)
}

fn question(numbers: &mut Numbers, basis: u64) -> Option<Words> {
    let mut words = [0; 64];
    words[0] = 8;
    words[BASIS] = basis;
    words[TASK] = numbers.next()?;
    numbers.floats(&mut words, TEMPERATURE, 1)?;
    numbers.floats(&mut words, PRESSURE, 1)?;
    numbers.floats(&mut words, FRACTIONS, 8)?;
    words[MAX_ITERATIONS] = numbers.next()?;
    numbers.floats(&mut words, TOLERANCE, 1)?;
    words[MAX_TEMPERATURE_ITERATIONS] = numbers.next()?;
    numbers.floats(&mut words, ENERGY_TOLERANCE, 1)?;
    numbers.floats(&mut words, TM_THRESHOLD, 1)?;
    numbers.floats(&mut words, BRACKET, 2)?;
    numbers.floats(&mut words, K_VALUES, 8)?;
    Some(words)
}
