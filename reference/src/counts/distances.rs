//! Distances by what was found, and from where.

use super::kinds::{model_is, Kinds};
use super::Tally;
use crate::named::model::ACTIVITY_PRESSURE_RANGE_PA;
use crate::sheet::anew::word;
use crate::sheet::distance::{flashed, Distance, Search, Way, FARTHEST};
use crate::sheet::question::PRESSURE;
use crate::sheet::reply::{BUBBLE, DEW, OUTCOME};
use crate::stage::{Case, Found};

#[derive(Debug, Default)]
pub struct Distances {
    books: Kinds,
    rooms: Kinds,
    ways: Kinds,
    /// Of the accepted; in each how many had refused steps before.
    found: Kinds,
    changes: Kinds,
    windows: Kinds,
    places: Kinds,
    none: Both,
    step: Both,
    /// Numbers of the steps.
    refused: Tally,
}

/// All, and those with refused steps before.
#[derive(Debug, Default)]
struct Both {
    all: usize,
    refused: usize,
}

impl Distances {
    pub fn add(&mut self, case: &Case, found: &Found) {
        let Case::Distance { book, question, room, way } = case else { return };
        let accepted = found.refusal == 0;
        if let Some(model) = model_is(book) {
            self.books.add(model, accepted);
        }
        self.rooms.add(["0", "1", "2", "3", "4", "5", "6", "more"][*room.min(&7)], accepted);
        self.ways.add(if *way == Way::Plain { "by plain calls alone" } else { "by one for each side" }, accepted);
        if let Some(search) = &found.search {
            self.add_search(book, question, search);
        }
    }

    fn add_search(&mut self, book: &[u8], question: &[u8], search: &Search) {
        let first = flashed(book, question).expect("the flash at P is accepted");
        let behind = !search.refused.is_empty();
        search.refused.iter().for_each(|number| self.refused.add(*number));
        let own = word(&first, OUTCOME);
        self.found.add(how_far(own, search.distance), behind);
        let [bubble, dew] = [BUBBLE, DEW].map(|at| f64::from_bits(word(&first, at)));
        self.windows.add(window(bubble - dew), behind);
        self.places.add(place(f64::from_bits(word(question, PRESSURE))), behind);
        let both = match search.distance {
            Distance::None => &mut self.none,
            Distance::Step { outcome, .. } => {
                self.changes.add(change(own, outcome), behind);
                &mut self.step
            }
        };
        both.all += 1;
        both.refused += usize::from(behind);
    }

    pub fn print(&self) {
        self.books.print("distances by their books");
        self.rooms.print("distances by the words of their slice");
        self.ways.print("distances of the reference");
        for (kinds, what) in [
            (&self.found, "accepted, by steps"),
            (&self.changes, "accepted, by what changes"),
            (&self.windows, "accepted, by bubble less dew pressure"),
            (&self.places, "accepted, by P"),
        ] {
            kinds.print_as(what, "behind refused steps");
        }
        let (step, none) = (&self.step, &self.none);
        println!(
            "distances: {} accepted, {} found, {} none; with refused steps before: {} ({} found, {} none); steps refused: {}",
            step.all + none.all,
            step.all,
            none.all,
            step.refused + none.refused,
            step.refused,
            none.refused,
            self.refused.refused()
        );
    }
}

fn how_far(from: u64, distance: Distance) -> &'static str {
    match distance {
        Distance::None => ["", "none, of a liquid", "none, of a vapor", "none, of both"][from as usize],
        Distance::Step { s, .. } => match s.abs() {
            1 => "1",
            2..=20 => "2 to 20",
            21..=499 => "21 to 499",
            500..FARTHEST => "500 to 999",
            _ => "1000",
        },
    }
}

fn change(from: u64, to: u64) -> &'static str {
    match (from, to) {
        (1, 2) => "over both boundaries, down",
        (2, 1) => "over both boundaries, up",
        (1, _) => "liquid to both",
        (2, _) => "vapor to both",
        (_, 1) => "both to liquid",
        _ => "both to vapor",
    }
}

fn window(width: f64) -> &'static str {
    match width {
        0.0 => "0",
        _ if width < 100.0 => "below 100 Pa",
        _ if width < 200_000.0 => "to 200 kPa",
        _ => "wider",
    }
}

fn place(p: f64) -> &'static str {
    let [low, high] = ACTIVITY_PRESSURE_RANGE_PA;
    let reach = 100.0 * FARTHEST as f64;
    match (p - low, high - p) {
        (below, _) if below < 1000.0 => "within 1 kPa of 100 Pa",
        (_, above) if above < 1000.0 => "within 1 kPa of 500 kPa",
        (below, _) if below < reach => "within 100 kPa of 100 Pa",
        (_, above) if above < reach => "within 100 kPa of 500 kPa",
        _ => "between",
    }
}
