//! Calls counted by what they hold.

use std::collections::BTreeMap;

use super::{is_wilson, version};

/// How many of each kind, and how many of them were accepted.
#[derive(Debug, Default)]
pub struct Kinds(BTreeMap<&'static str, (usize, usize)>);

impl Kinds {
    pub fn add(&mut self, what: &'static str, accepted: bool) {
        let (all, yes) = self.0.entry(what).or_default();
        *all += 1;
        *yes += usize::from(accepted);
    }

    pub fn print(&self, what: &str) {
        self.print_as(what, "accepted");
    }

    /// Where those that count twice have another name.
    pub fn print_as(&self, what: &str, yes_is: &str) {
        let parts: Vec<String> =
            self.0.iter().map(|(what, (all, yes))| format!("{what}: {all} ({yes} {yes_is})")).collect();
        println!("{what}: {}", parts.join(", "));
    }
}

/// Of a slice of drums or feeds, 64 bytes each, of which a call takes 1 to 64.
pub fn how_many(bytes: usize) -> &'static str {
    match bytes / 64 {
        _ if !bytes.is_multiple_of(64) => "cut",
        0 => "none",
        1 => "1",
        2..=63 => "2 to 63",
        64 => "64",
        65 => "65",
        _ => "above 65",
    }
}

/// Model and version of a book that has one.
pub fn model_is(book: &[u8]) -> Option<&'static str> {
    let wilson = is_wilson(book);
    match version(book)? {
        1 => Some("NRTL 1"),
        2 => Some(if wilson { "Wilson 2" } else { "NRTL 2" }),
        3 => Some(if wilson { "Wilson 3" } else { "NRTL 3" }),
        _ => None,
    }
}
