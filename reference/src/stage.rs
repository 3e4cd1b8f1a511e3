//! The stages of the comparison: a case is an input; both sides turn it into words that have to be equal.

use std::fmt::Write;
use std::hint::black_box;

use crate::evaluations::counted;
use crate::helpers::{self, bits_of};
use crate::limits::{self, Limits};
use crate::named::liquid::Correlation;
use crate::named::rachford_rice::{rachford_rice, rachford_rice_negative, RachfordRiceOutcome, RachfordRiceSolution};
use crate::placed;
use crate::rattle;
use crate::sheet::blocks::Rule;
use crate::sheet::book::{Pairs, Solvent};
use crate::sheet::distance::{self, Search, Way, RESULT_WORDS};
use crate::sheet::place::PLACE_WORDS;
use crate::sheet::readers;
use crate::sheet::reply::TRIALS;
use crate::sheet::{self, open_book, sentence, Book, ANSWER_BYTES};
use crate::types::Temperature;
use crate::with::With;

#[derive(Debug, Clone, Copy, PartialEq, Eq)]
pub enum Stage {
    Numbers,
    Fractions,
    Book,
    Pressure,
    Excess,
    Rice,
    Sheet,
    /// Sheets of version 2 books.
    Mass,
    /// Sheets of version 3 books.
    Exchanged,
    /// Sheets of Wilson books.
    Wilson,
    /// Sheets with drums.
    Pooled,
    /// Sheets with many feeds.
    Feeds,
    /// Sheets with an offered pair.
    Preview,
    /// Flashes in a queue.
    Queue,
    /// Calls with a limit raised.
    Limits,
    /// Distances to the next phase change.
    Distance,
    /// Answer slices, for the floor and for the lab.
    Readers,
    /// Calls with the place beside the number.
    Place,
    /// Refusals in words.
    Sentence,
}

pub const STAGES: [Stage; 19] = [
    Stage::Numbers,
    Stage::Fractions,
    Stage::Book,
    Stage::Pressure,
    Stage::Excess,
    Stage::Rice,
    Stage::Sheet,
    Stage::Mass,
    Stage::Exchanged,
    Stage::Wilson,
    Stage::Pooled,
    Stage::Feeds,
    Stage::Preview,
    Stage::Queue,
    Stage::Limits,
    Stage::Distance,
    Stage::Readers,
    Stage::Place,
    Stage::Sentence,
];

impl Stage {
    pub fn name(self) -> &'static str {
        match self {
            Stage::Numbers => "numbers",
            Stage::Fractions => "fractions",
            Stage::Book => "book",
            Stage::Pressure => "pressure",
            Stage::Excess => "excess",
            Stage::Rice => "rice",
            Stage::Sheet => "sheet",
            Stage::Mass => "mass",
            Stage::Exchanged => "exchanged",
            Stage::Wilson => "wilson",
            Stage::Pooled => "pooled",
            Stage::Feeds => "feeds",
            Stage::Preview => "preview",
            Stage::Queue => "queue",
            Stage::Limits => "limits",
            Stage::Distance => "distance",
            Stage::Readers => "readers",
            Stage::Place => "place",
            Stage::Sentence => "sentence",
        }
    }

    /// The stages that a word of the command line names.
    pub fn named(word: &str) -> Option<Vec<Stage>> {
        if word == "all" {
            return Some(STAGES.to_vec());
        }
        STAGES.iter().find(|stage| stage.name() == word).map(|stage| vec![*stage])
    }

    pub fn built_in(self) -> bool {
        match self {
            Stage::Numbers => cfg!(feature = "numbers"),
            Stage::Fractions => cfg!(feature = "fractions"),
            Stage::Book => cfg!(feature = "book"),
            Stage::Pressure => cfg!(feature = "pressure"),
            Stage::Excess => cfg!(feature = "excess"),
            Stage::Rice => cfg!(feature = "rice"),
            Stage::Sheet => cfg!(feature = "sheet"),
            Stage::Mass => cfg!(feature = "mass"),
            Stage::Exchanged => cfg!(feature = "exchanged"),
            Stage::Wilson => cfg!(feature = "wilson"),
            Stage::Pooled => cfg!(feature = "pooled"),
            Stage::Feeds => cfg!(feature = "feeds"),
            Stage::Preview => cfg!(feature = "preview"),
            Stage::Queue => cfg!(feature = "queue"),
            Stage::Limits => cfg!(feature = "limits"),
            Stage::Distance => cfg!(feature = "distance"),
            Stage::Readers => cfg!(feature = "readers"),
            Stage::Place => cfg!(feature = "place"),
            Stage::Sentence => cfg!(feature = "sentence"),
        }
    }

    pub fn has_sheets(self) -> bool {
        !matches!(
            self,
            Stage::Numbers
                | Stage::Fractions
                | Stage::Book
                | Stage::Pressure
                | Stage::Excess
                | Stage::Rice
                | Stage::Readers
                | Stage::Sentence
        )
    }
}

#[derive(Debug, Clone, Copy, PartialEq, Eq)]
pub enum Function {
    Exp,
    Ln,
    Powf,
    Max,
    Min,
    Abs,
    IsFinite,
    BitsOf,
    FloatOf,
}

#[derive(Debug, Clone)]
pub enum Case {
    /// Inputs by their bits; the second only where the function has two.
    Number {
        function: Function,
        a: u64,
        b: u64,
    },
    Fractions {
        x: [f64; 8],
        n: usize,
    },
    Normalize {
        x: [f64; 8],
        n: usize,
    },
    Book {
        book: Vec<u8>,
    },
    /// Solvent i at t (K).
    Pressure {
        book: Vec<u8>,
        i: usize,
        t: f64,
    },
    Excess {
        book: Vec<u8>,
        t: f64,
        x: [f64; 8],
    },
    Rice {
        negative: bool,
        z: [f64; 8],
        k: [f64; 8],
        n: usize,
        limit: u64,
    },
    Sheet {
        book: Vec<u8>,
        question: Vec<u8>,
        room: usize,
    },
    /// A sheet with one slice more, or a queue.
    With {
        with: With,
        book: Vec<u8>,
        question: Vec<u8>,
        lent: Vec<u8>,
        room: usize,
    },
    /// Another sheet's call, made as it is and with these limits.
    Raised {
        asked: Box<Case>,
        limits: Limits,
    },
    /// A flash, room for so many words of the result, and how the reference asks its steps.
    Distance {
        book: Vec<u8>,
        question: Vec<u8>,
        room: usize,
        way: Way,
    },
    /// An answer slice, and room for so many words of the floor.
    Readers {
        slice: Vec<u8>,
        room: usize,
    },
    /// One of the six calls, and room for so many words of the place.
    Placed {
        asked: Box<Case>,
        room: usize,
    },
    /// A number, the words of a place, and bytes for the text.
    Sentence {
        number: u64,
        place: Vec<u64>,
        room: usize,
    },
}

/// One side's result: the refusal number (0 for an answer) and all words that were returned or written.
#[derive(Debug, Clone, PartialEq, Default)]
pub struct Found {
    pub refusal: u32,
    pub words: Vec<u64>,
    /// Activity evaluations that the reference began, of a sheet.
    pub begun: u64,
    /// What the steps of a distance came to, where the flash at P is accepted.
    pub search: Option<Search>,
}

/// What stands in an output before the call.
const UNTOUCHED: f64 = -1.2345e67;
const NO_LENGTH: u64 = 0x7777_0000_7777;

impl Case {
    /// The reference's result.
    pub fn expected(&self) -> Found {
        match self {
            Case::Number { function, a, b } => answered(vec![number(*function, *a, *b)]),
            Case::Fractions { x, n } => refused_or(fractions(&x[..*n]), Vec::new()),
            Case::Normalize { x, n } => written(normalized(&x[..*n]), *x),
            Case::Book { book } => match open_book(book) {
                Ok(book) => answered(vec![100 + book.solvents.len() as u64]),
                Err(number) => Found { refusal: number, words: vec![number.into()], ..Found::default() },
            },
            Case::Pressure { book, i, t } => written(vapor_pressure(book, *i, *t), [UNTOUCHED; 4]),
            Case::Excess { book, t, x } => written(excess(book, *t, x), [UNTOUCHED; 23]),
            Case::Rice { negative, z, k, n, limit } => rice(*negative, &z[..*n], &k[..*n], *limit),
            Case::Sheet { book, question, room } => {
                let mut answer = unwritten(*room);
                let (number, begun) = counted(|| sheet::answer(book, question, &mut answer));
                Found { begun, ..refused_or(number, bytes_as_words(&answer)) }
            }
            Case::With { with, book, question, lent, room } => {
                let mut answer = unwritten(*room);
                let (number, begun) = counted(|| with.reference(book, question, lent, &mut answer));
                Found { begun, ..refused_or(number, bytes_as_words(&answer)) }
            }
            Case::Raised { asked, limits } => limits::both(asked, *limits),
            Case::Distance { book, question, room, way } => {
                let mut words = bytes_as_words(&unwritten(8 * room));
                match distance::search(book, question, *way) {
                    Ok(search) => {
                        search.write(&mut words);
                        Found { search: Some(search), ..refused_or(0, words) }
                    }
                    Err(number) => refused_or(number, words),
                }
            }
            Case::Readers { slice, room } => {
                let mut words = bytes_as_words(&unwritten(8 * room));
                let number = readers::write_floor(slice, &mut words);
                let bytes = readers::lab(slice).map_or(0, <[u8]>::len);
                refused_or(number, with_number(bytes as u64, words))
            }
            Case::Placed { asked, room } => {
                let mut found = asked.expected();
                let mut place = bytes_as_words(&unwritten(8 * room));
                placed::place_of(asked, found.refusal).write(&mut place);
                found.words.append(&mut place);
                found
            }
            Case::Sentence { number, place, room } => {
                let (mut text, mut length) = (unwritten(*room), NO_LENGTH);
                let refusal = sentence::write(*number, place, &mut text, &mut length);
                refused_or(refusal, with_number(length, bytes_as_words(&text)))
            }
        }
    }

    /// Book and question, where the case is a sheet.
    pub fn sheet(&self) -> Option<(&[u8], &[u8])> {
        match self {
            Case::Sheet { book, question, .. }
            | Case::With { book, question, .. }
            | Case::Distance { book, question, .. } => Some((book, question)),
            Case::Raised { asked, .. } | Case::Placed { asked, .. } => asked.sheet(),
            _ => None,
        }
    }

    /// How many parts of the answer slice an accepted sheet fills.
    pub fn parts(&self) -> usize {
        match self {
            Case::With { with, question, lent, .. } => with.parts(question, lent),
            _ => 1,
        }
    }

    /// The calls that it makes.
    pub fn calls(self) -> Vec<Self> {
        match self {
            Case::Raised { asked, limits } => {
                let raised = asked.with_limits(limits);
                vec![*asked, raised]
            }
            call => vec![call],
        }
    }

    /// The same call with these limits in its question, whose check is made right.
    pub fn with_limits(&self, limits: Limits) -> Self {
        let mut raised = self.clone();
        if let Case::Sheet { book, question, .. } | Case::With { book, question, .. } = &mut raised {
            *question = limits::raised(book, question, limits);
        }
        raised
    }

    /// The core's words; `None` where the stage is not built in.
    pub fn offered(&self) -> Option<Vec<u64>> {
        match self {
            Case::Number { function, a, b } => Some(vec![core_number(*function, *a, *b)?]),
            Case::Fractions { x, n } => Some(vec![rattle::fractions(x, *n)?]),
            Case::Normalize { x, n } => {
                let mut out = *x;
                let number = rattle::normalize(&mut out, *n)?;
                Some(with_number(number, floats(&out)))
            }
            Case::Book { book } => Some(vec![rattle::open_book(book)?]),
            Case::Pressure { book, i, t } => {
                let mut out = [UNTOUCHED; 4];
                let number = rattle::vapor_pressure(book, *i, *t, &mut out)?;
                Some(with_number(number, floats(&out)))
            }
            Case::Excess { book, t, x } => {
                let mut out = [UNTOUCHED; 23];
                let number = rattle::excess(book, *t, x, &mut out)?;
                Some(with_number(number, floats(&out)))
            }
            Case::Rice { negative, z, k, n, limit } => {
                let mut out = [UNTOUCHED; 19];
                let call = if *negative { rattle::rachford_rice_negative } else { rattle::rachford_rice };
                let number = call(z, k, *n, *limit, &mut out)?;
                Some(with_number(number, floats(&out)))
            }
            Case::Sheet { book, question, room, .. } => {
                let mut answer = unwritten(*room);
                let number = rattle::answer(book, question, &mut answer)?;
                Some(with_number(number, bytes_as_words(&answer)))
            }
            Case::With { with, book, question, lent, room } => {
                let (own, mut answer) = (book.clone(), unwritten(*room));
                let number = with.core(&own, question, lent, &mut answer)?;
                let mut words = with_number(number, bytes_as_words(&answer));
                // A word too many: the book was written.
                words.extend((black_box(&own) != book).then_some(0));
                Some(words)
            }
            Case::Raised { asked, limits } => {
                let mut words = asked.offered()?;
                words.extend(asked.with_limits(*limits).offered()?);
                Some(words)
            }
            Case::Distance { book, question, room, .. } => {
                let (own, asked, mut words) = (book.clone(), question.clone(), bytes_as_words(&unwritten(8 * room)));
                let number = rattle::distance(&own, &asked, &mut words)?;
                // A word too many: book or question was written.
                words.extend((black_box((&own, &asked)) != (book, question)).then_some(0));
                Some(with_number(number, words))
            }
            Case::Readers { slice, room } => {
                let (own, mut words) = (slice.clone(), bytes_as_words(&unwritten(8 * room)));
                let number = rattle::floor(&own, &mut words)?;
                let bytes = rattle::lab(&own)? as u64;
                // A word too many: the slice was written.
                words.extend((black_box(&own) != slice).then_some(0));
                Some(with_number(number, with_number(bytes, words)))
            }
            Case::Placed { asked, room } => asked.offered_placed(*room),
            Case::Sentence { number, place, room } => {
                let (own, mut text, mut length) = (place.clone(), unwritten(*room), NO_LENGTH);
                let refusal = rattle::sentence(*number, &own, &mut text, &mut length)?;
                let mut words = with_number(refusal, with_number(length, bytes_as_words(&text)));
                // A word too many: the place was written.
                words.extend((black_box(&own) != place).then_some(0));
                Some(words)
            }
        }
    }

    /// The core's words of one of the six calls and, behind them, of the place.
    fn offered_placed(&self, room: usize) -> Option<Vec<u64>> {
        let mut place = bytes_as_words(&unwritten(8 * room));
        let (with, book, question, lent) = match self {
            Case::With { with, book, question, lent, .. } => (Some(*with), book, question, &lent[..]),
            Case::Sheet { book, question, .. } | Case::Distance { book, question, .. } => {
                (None, book, question, &[][..])
            }
            _ => unreachable!("one of the six calls"),
        };
        let own = [&book[..], question, lent].map(<[u8]>::to_vec);
        let read = own.each_ref().map(Vec::as_slice);
        let (number, written) = match self {
            Case::Distance { room, .. } => {
                let mut words = bytes_as_words(&unwritten(8 * room));
                (rattle::distance_placed(read[0], read[1], &mut words, &mut place)?, words)
            }
            Case::Sheet { room, .. } | Case::With { room, .. } => {
                let mut answer = unwritten(*room);
                (placed::core(with, read, &mut answer, &mut place)?, bytes_as_words(&answer))
            }
            _ => unreachable!("one of the six calls"),
        };
        let mut words = with_number(number, written);
        words.extend(place);
        // A word too many: what is only read was written.
        words.extend((black_box(read) != [&book[..], question, lent]).then_some(0));
        Some(words)
    }

    /// Name and inputs as hex words.
    pub fn line(&self) -> String {
        let mut line = String::from(self.name());
        match self {
            Case::Number { function, a, b } => hex(&mut line, &[*a, *b][..arguments(*function)]),
            Case::Fractions { x, n } | Case::Normalize { x, n } => {
                hex(&mut line, &[*n as u64]);
                hex(&mut line, &raw(x));
            }
            Case::Book { book } => hex_bytes(&mut line, book),
            Case::Pressure { book, i, t } => {
                hex_bytes(&mut line, book);
                hex(&mut line, &[*i as u64, t.to_bits()]);
            }
            Case::Excess { book, t, x } => {
                hex_bytes(&mut line, book);
                hex(&mut line, &[t.to_bits()]);
                hex(&mut line, &raw(x));
            }
            Case::Rice { z, k, n, limit, .. } => {
                hex(&mut line, &[*n as u64, *limit]);
                hex(&mut line, &raw(z));
                hex(&mut line, &raw(k));
            }
            Case::Sheet { book, question, room, .. } | Case::Distance { book, question, room, .. } => {
                hex_bytes(&mut line, book);
                hex_bytes(&mut line, question);
                hex(&mut line, &[*room as u64]);
            }
            Case::With { book, question, lent, room, .. } => {
                for bytes in [book, question, lent] {
                    hex_bytes(&mut line, bytes);
                }
                hex(&mut line, &[*room as u64]);
            }
            Case::Raised { asked, limits } => {
                return format!("{}, {}", asked.line(), asked.with_limits(*limits).line())
            }
            Case::Readers { slice, room } => {
                hex_bytes(&mut line, slice);
                hex(&mut line, &[*room as u64]);
            }
            Case::Placed { asked, room } => {
                hex(&mut line, &[placed::call_of(asked) as u64]);
                line.push_str(&asked.line()[asked.name().len()..]);
                hex(&mut line, &[*room as u64]);
            }
            Case::Sentence { number, place, room } => {
                hex(&mut line, &[*number]);
                hex(&mut line, place);
                hex(&mut line, &[*room as u64]);
            }
        }
        line
    }

    /// The reference's results as they are stored.
    pub fn results(&self) -> String {
        let mut line = String::new();
        let words = self.stored();
        hex(&mut line, &words[..1]);
        match (self, &words[1..]) {
            (Case::Sentence { .. }, [length, text @ ..]) => {
                write!(line, " b{length}").expect("a string takes it");
                hex_words(&mut line, text);
            }
            (_, words) => hex_words(&mut line, words),
        }
        line
    }

    /// The reference's words as they are stored: without what a call leaves untouched.
    pub fn stored(&self) -> Vec<u64> {
        let mut words = self.expected().words;
        let kept = match self {
            Case::With { .. } if words[0] == 0 => return blocks_of_parts(&words, self.parts()),
            Case::Sheet { .. } if words[0] == 0 => 1 + written_words(&words[1..]),
            Case::Normalize { .. } | Case::Pressure { .. } | Case::Excess { .. } if words[0] == 0 => words.len(),
            Case::Rice { .. } if words[0] == 3 => words.len(),
            Case::Distance { room, .. } if words[0] == 0 && *room >= RESULT_WORDS => 1 + RESULT_WORDS,
            // The number and the place, without what the call wrote besides.
            Case::Placed { room, .. } => {
                words.drain(1..words.len() - room);
                1 + if *room >= PLACE_WORDS { PLACE_WORDS } else { 0 }
            }
            Case::Sentence { .. } if words[0] == 0 => return stored_text(&words),
            // The number and the lab's bytes; then the floor's words.
            Case::Readers { .. } => 2 + if words[0] == 0 { readers::FLOOR_WORDS } else { 0 },
            Case::Number { .. } | Case::Fractions { .. } | Case::Book { .. } => words.len(),
            _ => 1,
        };
        words.truncate(kept);
        words
    }

    pub fn name(&self) -> &'static str {
        match self {
            Case::Number { function, .. } => match function {
                Function::Exp => "exp",
                Function::Ln => "ln",
                Function::Powf => "powf",
                Function::Max => "max",
                Function::Min => "min",
                Function::Abs => "abs",
                Function::IsFinite => "is_finite",
                Function::BitsOf => "bits_of",
                Function::FloatOf => "float_of",
            },
            Case::Fractions { .. } => "fractions",
            Case::Normalize { .. } => "normalize",
            Case::Book { .. } => "open_book",
            Case::Pressure { .. } => "vapor_pressure",
            Case::Excess { .. } => "excess",
            Case::Rice { negative: false, .. } => "rachford_rice",
            Case::Rice { negative: true, .. } => "rachford_rice_negative",
            Case::Sheet { .. } => "answer",
            Case::With { with, .. } => with.name(),
            Case::Raised { asked, .. } => asked.name(),
            Case::Distance { .. } => "distance",
            Case::Readers { .. } => "readers",
            Case::Placed { .. } => "place",
            Case::Sentence { .. } => "sentence",
        }
    }
}

/// Number, length and text, 0 past the length.
fn stored_text(words: &[u64]) -> Vec<u64> {
    let bytes: Vec<u8> = words[2..].iter().flat_map(|word| word.to_le_bytes()).collect();
    [&words[..2], &bytes_as_words(&bytes[..words[1] as usize])].concat()
}

/// Of an answer block, whose word 12 is the number of trials, and those.
fn written_words(answer: &[u64]) -> usize {
    64 * (1 + answer[TRIALS] as usize)
}

/// The parts, one of each feed or question, in the words of an accepted call.
pub fn parts(words: &[u64], count: usize) -> impl Iterator<Item = &[u64]> {
    words[1..].chunks(ANSWER_BYTES / 8).take(count)
}

fn blocks_of_parts(words: &[u64], count: usize) -> Vec<u64> {
    let written = parts(words, count).flat_map(|part| &part[..written_words(part)]);
    words[..1].iter().chain(written).copied().collect()
}

fn answered(words: Vec<u64>) -> Found {
    Found { words, ..Found::default() }
}

fn refused_or(number: u32, words: Vec<u64>) -> Found {
    Found { refusal: number, words: with_number(number.into(), words), ..Found::default() }
}

fn with_number(number: u64, mut words: Vec<u64>) -> Vec<u64> {
    words.insert(0, number);
    words
}

/// The number, then the output as it stands afterwards.
fn written<const N: usize>(found: Result<[f64; N], u32>, untouched: [f64; N]) -> Found {
    match found {
        Ok(out) => refused_or(0, floats(&out)),
        Err(number) => refused_or(number, floats(&untouched)),
    }
}

fn floats(values: &[f64]) -> Vec<u64> {
    values.iter().map(|v| bits_of(*v)).collect()
}

fn raw(values: &[f64]) -> Vec<u64> {
    values.iter().map(|v| v.to_bits()).collect()
}

/// 0.0 past the values.
pub fn padded(values: &[f64]) -> [f64; 8] {
    std::array::from_fn(|k| values.get(k).copied().unwrap_or(0.0))
}

/// Noise without a period.
fn unwritten(room: usize) -> Vec<u8> {
    let word = |k: usize| (k as u64 + 1).wrapping_mul(0x9e37_79b9_7f4a_7c15).to_le_bytes();
    let mut bytes: Vec<u8> = (0..room.div_ceil(8)).flat_map(word).collect();
    bytes.truncate(room);
    bytes
}

/// Eight bytes a word, the last one filled up with zeros.
pub fn bytes_as_words(bytes: &[u8]) -> Vec<u64> {
    let word = |part: &[u8]| {
        let mut eight = [0; 8];
        eight[..part.len()].copy_from_slice(part);
        u64::from_le_bytes(eight)
    };
    bytes.chunks(8).map(word).collect()
}

pub fn hex(line: &mut String, words: &[u64]) {
    for word in words {
        write!(line, " {word:016x}").expect("a string takes it");
    }
}

/// `b` and the number of bytes, then words; `z` and a count stand for zero words in a row.
pub fn hex_bytes(line: &mut String, bytes: &[u8]) {
    write!(line, " b{}", bytes.len()).expect("a string takes it");
    hex_words(line, &bytes_as_words(bytes));
}

/// Words with zeros in a row as `z` and their count.
pub fn hex_words(line: &mut String, words: &[u64]) {
    for run in words.chunk_by(|a, b| (*a == 0) == (*b == 0)) {
        if run[0] == 0 {
            write!(line, " z{}", run.len()).expect("a string takes it");
        } else {
            hex(line, run);
        }
    }
}

fn arguments(function: Function) -> usize {
    match function {
        Function::Powf | Function::Max | Function::Min => 2,
        _ => 1,
    }
}

/// Which zero max and min give from +0 and −0 is open, so that zeros count as equal.
fn plus_zero(v: f64) -> u64 {
    bits_of(if v == 0.0 { 0.0 } else { v })
}

fn number(function: Function, a: u64, b: u64) -> u64 {
    let (v, w) = (f64::from_bits(a), f64::from_bits(b));
    match function {
        Function::Exp => bits_of(helpers::exp(v)),
        Function::Ln => bits_of(helpers::ln(v)),
        Function::Powf => bits_of(helpers::powf(v, w)),
        Function::Max => plus_zero(helpers::max(v, w)),
        Function::Min => plus_zero(helpers::min(v, w)),
        Function::Abs => bits_of(v.abs()),
        Function::IsFinite => v.is_finite().into(),
        Function::BitsOf | Function::FloatOf => bits_of(v),
    }
}

fn core_number(function: Function, a: u64, b: u64) -> Option<u64> {
    let (v, w) = (f64::from_bits(a), f64::from_bits(b));
    Some(match function {
        Function::Exp => bits_of(rattle::exp(v)?),
        Function::Ln => bits_of(rattle::ln(v)?),
        Function::Powf => bits_of(rattle::powf(v, w)?),
        Function::Max => plus_zero(rattle::max(v, w)?),
        Function::Min => plus_zero(rattle::min(v, w)?),
        Function::Abs => bits_of(rattle::abs(v)?),
        Function::IsFinite => rattle::is_finite(v)?.into(),
        Function::BitsOf => rattle::bits_of(v)?,
        Function::FloatOf => bits_of(rattle::float_of(a)?),
    })
}

/// 15, 16 and 18 as `with_fractions` puts them.
fn fractions(x: &[f64]) -> u32 {
    let constant =
        Correlation { t_r: 600.0, reducing_value: 1.0, range: [200.0, 500.0], n: vec![1.0], exponents: vec![1.0] };
    let solvent = |i| Solvent { cas: i as u64 + 1, vapor_pressure: constant.clone(), density: constant.clone() };
    let book = Book {
        rule: Rule::Plain,
        solvents: (0..x.len()).map(solvent).collect(),
        molar_masses: None,
        pairs: Pairs::Nrtl(Vec::new()),
    };
    book.model().with_fractions(x).map_or_else(|error| error.number(), |_| 0)
}

/// 34, or the fractions.
fn normalized(x: &[f64]) -> Result<[f64; 8], u32> {
    helpers::normalize(x.to_vec()).map(|found| padded(&found)).map_err(|error| error.number())
}

/// 1 to 9; 13; the solvent's own range (22); 25.
fn vapor_pressure(book: &[u8], i: usize, t: f64) -> Result<[f64; 4], u32> {
    let model = open_book(book)?.model();
    let temperature = Temperature::new(t).map_err(|_| 13u32)?;
    let found = model.liquids()[i].vapor_pressure(temperature).map_err(|error| error.number())?;
    Ok([found.pressure, found.ln_pressure, found.d_ln_pressure_dt, found.d2_ln_pressure_dt2])
}

/// 1 to 9, 35, 37 and 38; then 13, 15, 16, 18, 24, 25 as `excess` has them.
fn excess(book: &[u8], t: f64, x: &[f64; 8]) -> Result<[f64; 23], u32> {
    let book = open_book(book)?;
    let n = book.solvents.len();
    let state = book.model().nrtl().excess(t, &x[..n]).map_err(|error| error.number())?;
    let mut out = [0.0; 23];
    out[..n].copy_from_slice(&state.ln_activity_coefficients);
    out[8..8 + n].copy_from_slice(&state.d_ln_activity_coefficients_dt);
    out[16..].copy_from_slice(&[
        state.reduced_excess_gibbs,
        state.excess_gibbs,
        state.excess_enthalpy,
        state.excess_entropy,
        state.excess_heat_capacity,
        state.validity.word() as f64,
        f64::from(u8::from(state.inferred_regression_interval)),
    ]);
    Ok(out)
}

/// 1 liquid, 2 vapor, 3 both with the output filled, or 100 and the refusal number.
fn rice(negative: bool, z: &[f64], k: &[f64], limit: u64) -> Found {
    let found = if negative {
        rachford_rice_negative(z, k, limit as usize).map(RachfordRiceOutcome::TwoPhase)
    } else {
        rachford_rice(z, k, limit as usize)
    };
    let untouched = floats(&[UNTOUCHED; 19]);
    match found {
        Ok(RachfordRiceOutcome::LiquidOnly) => answered(with_number(1, untouched)),
        Ok(RachfordRiceOutcome::VaporOnly) => answered(with_number(2, untouched)),
        Ok(RachfordRiceOutcome::TwoPhase(solution)) => answered(with_number(3, solution_words(&solution))),
        Err(error) => {
            let number = error.number();
            Found { refusal: number, words: with_number(100 + u64::from(number), untouched), ..Found::default() }
        }
    }
}

fn solution_words(found: &RachfordRiceSolution) -> Vec<u64> {
    let mut words = floats(&[found.vapor_fraction, found.residual, found.iterations as f64]);
    words.extend(floats(&padded(&found.liquid)));
    words.extend(floats(&padded(&found.vapor)));
    words
}
