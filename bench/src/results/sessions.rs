//! What is measured of sessions.

use super::{Build, Facts, Measured, Row};
use crate::decks::{Kind, Known};
use crate::measure::Times;
use crate::sessions::Played;
use crate::ways::{Prepared, Way};

impl Row {
    /// Times the calls of a session of each deck.
    pub fn of_sessions(kind: &Kind, build: Build, rounds: usize) -> Self {
        let decks = kind.decks.iter();
        Self {
            name: kind.name.to_owned(),
            build,
            decks: decks
                .map(|deck| Measured::of_session(deck, rounds))
                .collect(),
            counts: Vec::new(),
        }
    }
}

impl Measured {
    fn of_session(bytes: &[u8], rounds: usize) -> Self {
        let known = Known::of(bytes);
        Prepared::new(bytes).compare();
        let mut played = Played::new(bytes);
        played.compare();
        let facts = Facts::of(bytes, &known, played.lent());
        let ways = Way::of_sessions().map(|way| (way, rounds));
        let times = Times::of(ways, |way, calls, cost| played.time(way, calls, cost));
        Self {
            facts,
            runs: vec![times],
        }
    }
}
