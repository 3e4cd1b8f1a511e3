//! The C header and this crate give one name and one number to each refusal, word, kind, task, outcome, note, validity
//! and size.

use zektonk::format;
use zektonk::{
    Options, Reason, ANSWER_ROOM, BLOCK, BOOK_LARGEST, BOOK_MOST, DISTANCE_WORDS, DRUMS_MOST, DRUM_BYTES, FEEDS_MOST,
    FEED_BYTES, FLOOR_WORDS, PLACE_WORDS, POOL_MOST, QUEUE_MOST, SENTENCE_ROOM, STEPS_MOST, STEP_PASCALS, VERSION,
};

const HEADER: &str = include_str!("../../c/zektonk.h");

/// `KOneSided` as `K_ONE_SIDED`.
fn in_c(name: &str) -> String {
    let mut words = String::new();
    for (k, letter) in name.chars().enumerate() {
        if k > 0 && letter.is_uppercase() {
            words.push('_');
        }
        words.push(letter.to_ascii_uppercase());
    }
    words
}

/// The names of an enum with their numbers.
fn entries(tag: &str) -> Vec<(String, u64)> {
    let (_, from) = HEADER.split_once(&format!("enum {tag} {{")).expect("the header has it");
    let body = from.split_once("};").expect("it ends").0;
    let plain: String = body.split("/*").map(|part| part.split_once("*/").map_or(part, |(_, after)| after)).collect();
    let entry = |text: &str| {
        let (name, number) = text.split_once('=').expect("a name has a number");
        (name.trim().to_string(), number.trim().parse().expect("a number"))
    };
    plain.split(',').filter(|text| !text.trim().is_empty()).map(entry).collect()
}

fn same<T: Copy + TryInto<u64>>(tag: &str, prefix: &str, ours: &[(&str, T)]) {
    let number = |value: T| value.try_into().ok().expect("no number is larger");
    let ours: Vec<_> = ours.iter().map(|(name, value)| (format!("{prefix}{name}"), number(*value))).collect();
    assert_eq!(entries(tag), ours, "{tag}");
}

#[test]
fn refusals() {
    let found = entries("zektonk_refusal");
    assert_eq!(found[0], ("ZEKTONK_ANSWERED".into(), 0));
    let named = |reason: Reason| (format!("ZEKTONK_{}", in_c(&format!("{reason:?}"))), reason.number().unwrap());
    assert_eq!(found[1..], Reason::ALL.map(named));
}

#[test]
fn words() {
    same("zektonk_any_word", "ZEKTONK_WORD_", format::any::ALL);
    same("zektonk_book_word", "ZEKTONK_BOOK_WORD_", format::book::ALL);
    same("zektonk_solvent_word", "ZEKTONK_SOLVENT_WORD_", format::solvent::ALL);
    same("zektonk_pair_word", "ZEKTONK_PAIR_WORD_", format::pair::ALL);
    same("zektonk_wilson_word", "ZEKTONK_WILSON_WORD_", format::wilson::ALL);
    same("zektonk_question_word", "ZEKTONK_QUESTION_WORD_", format::question::ALL);
    same("zektonk_answer_word", "ZEKTONK_ANSWER_WORD_", format::answer::ALL);
    same("zektonk_trial_word", "ZEKTONK_TRIAL_WORD_", format::trial::ALL);
    same("zektonk_distance_word", "ZEKTONK_DISTANCE_WORD_", format::distance::ALL);
    same("zektonk_floor_word", "ZEKTONK_FLOOR_WORD_", format::floor::ALL);
    same("zektonk_place_word", "ZEKTONK_PLACE_WORD_", format::place::ALL);
}

#[test]
fn numbers() {
    same("zektonk_kind", "ZEKTONK_KIND_", format::kind::ALL);
    same("zektonk_place_kind", "ZEKTONK_PLACE_", format::place_kind::ALL);
    same("zektonk_model", "ZEKTONK_MODEL_", format::model::ALL);
    same("zektonk_feed", "ZEKTONK_FEED_", format::feed::ALL);
    same("zektonk_task", "ZEKTONK_", format::task::ALL);
    same("zektonk_outcome", "ZEKTONK_", format::outcome::ALL);
    same("zektonk_note", "ZEKTONK_NOTE_", format::note::ALL);
    same("zektonk_validity", "ZEKTONK_", format::validity::ALL);
}

#[test]
fn every_enumeration_is_held() {
    assert_eq!(HEADER.matches("\nenum zektonk_").count(), 20);
}

/// What a macro stands for.
fn defined(name: &str) -> &'static str {
    let start = format!("#define ZEKTONK_{name} ");
    let line = HEADER.lines().find(|line| line.starts_with(&start)).expect("the header has it");
    line[start.len()..].split_whitespace().next().expect("it stands for something").trim_matches(['(', ')', '"'])
}

#[test]
fn sizes_and_version() {
    assert_eq!(defined("VERSION"), VERSION);
    for (name, value) in [
        ("BLOCK", BLOCK),
        ("QUESTION", BLOCK),
        ("ANSWER_ROOM", ANSWER_ROOM),
        ("BOOK_LARGEST", BOOK_LARGEST),
        ("BOOK_MOST", BOOK_MOST),
        ("WORDS", BLOCK / 8),
        ("SOLVENTS_MOST", 8),
        ("TERMS_MOST", 8),
        ("DRUM_BYTES", DRUM_BYTES),
        ("DRUMS_MOST", DRUMS_MOST),
        ("FEED_BYTES", FEED_BYTES),
        ("FEEDS_MOST", FEEDS_MOST),
        ("QUEUE_MOST", QUEUE_MOST),
        ("DISTANCE_WORDS", DISTANCE_WORDS),
        ("TRIALS_MOST", ANSWER_ROOM / BLOCK - 1),
        ("FLOOR_WORDS", FLOOR_WORDS),
        ("PLACE_WORDS", PLACE_WORDS),
        ("SENTENCE_ROOM", SENTENCE_ROOM),
    ] {
        assert_eq!(defined(name), value.to_string(), "{name}");
    }
    assert_eq!(defined("STEPS_MOST"), STEPS_MOST.to_string());
    assert_eq!(defined("STEP_PASCALS"), STEP_PASCALS.to_string());
    assert_eq!(defined("POOL_MOST"), POOL_MOST.to_string());
    assert_eq!(defined("FORMAT_VERSION"), format::VERSION.to_string());
    assert_eq!(defined("FORMAT_VERSION_MASS"), format::VERSION_MASS.to_string());
    assert_eq!(defined("FORMAT_VERSION_RUNNING"), format::VERSION_RUNNING.to_string());
}

#[test]
fn default_options() {
    let ours = Options::default();
    let float = |name: &str| defined(&format!("DEFAULT_{name}")).parse::<f64>().expect("a float");
    assert_eq!(float("TOLERANCE"), ours.tolerance);
    assert_eq!(float("ENERGY_TOLERANCE"), ours.energy_tolerance);
    assert_eq!(float("TM_THRESHOLD"), ours.tm_threshold);
    assert_eq!([float("LOW"), float("HIGH")], ours.bracket.map(|t| t.0));
    assert_eq!(defined("DEFAULT_MAX_ITERATIONS"), ours.max_iterations.to_string());
    assert_eq!(defined("DEFAULT_MAX_TEMPERATURE_ITERATIONS"), ours.max_temperature_iterations.to_string());
}
