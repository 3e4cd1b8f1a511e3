//! Sentences by what is named in them.

use super::kinds::Kinds;
use crate::sheet::place::Place;
use crate::sheet::sentence::SENTENCE_ROOM;
use crate::stage::{Case, Found};

#[derive(Debug, Default)]
pub struct Sentences {
    places: Kinds,
    rooms: Kinds,
    longest: u64,
}

impl Sentences {
    pub fn add(&mut self, case: &Case, found: &Found) {
        let Case::Sentence { number, place, room } = case else { return };
        let (accepted, place) = (found.refusal == 0, Place::of(place));
        let named = if place.is_of(*number) { place.kind() } else { "left out" };
        self.places.add(named, accepted);
        let room = match room {
            _ if *room < SENTENCE_ROOM => "fewer than 160 bytes",
            &SENTENCE_ROOM => "160 bytes",
            _ => "more bytes",
        };
        self.rooms.add(room, accepted);
        if accepted {
            self.longest = self.longest.max(found.words[1]);
        }
    }

    pub fn print(&self) {
        self.places.print("sentences by place");
        self.rooms.print("sentences by room");
        println!("longest: {} bytes", self.longest);
    }
}
