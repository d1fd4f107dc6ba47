//! What is measured of decks with their states, and of texts that are read.

use super::{Build, Facts, Measured, Row};
use crate::decks::Known;
use crate::measure::{Spread, Times};
use crate::trials::{Kind, Texts};
use crate::tried::Tried;
use crate::ways::Way;

impl Row {
    /// Tries the states.
    pub fn of_states(kind: &Kind, build: Build, rounds: usize) -> Self {
        Self::of_texts(kind, build, |texts| {
            Measured::of_state(texts, kind.second, rounds)
        })
    }

    /// Times the reading of decks and states.
    pub fn of_reading(kind: &Kind, build: Build, rounds: usize) -> Self {
        Self::of_texts(kind, build, |texts| Measured::of_reading(texts, rounds))
    }

    fn of_texts(kind: &Kind, build: Build, measured: impl FnMut(&Texts) -> Measured) -> Self {
        Self {
            name: kind.name.to_owned(),
            build,
            decks: kind.texts.iter().map(measured).collect(),
            counts: Vec::new(),
        }
    }
}

impl Measured {
    /// The second evaluator takes long enough for one call in a run, and the tests too where it would take too long.
    fn of_state(texts: &Texts, second: bool, rounds: usize) -> Self {
        let known = Known::of(&texts.deck);
        let mut tried = Tried::new(texts);
        let mut facts = Facts::of(&texts.deck, &known, tried.lent());
        facts.state = texts.state.len();
        let rounds = if second {
            tried.compare(known);
            rounds
        } else {
            tried.expect_holds();
            1
        };
        let ours = Way::OF_STATES.map(|way| (way, rounds));
        let theirs = Way::SECOND.into_iter().filter(|_| second);
        let ways = ours.into_iter().chain(theirs.map(|way| (way, 1)));
        let times = Times::of(ways, |way, calls, cost| tried.time(way, calls, cost));
        Self {
            facts,
            runs: vec![times],
        }
    }

    fn of_reading(texts: &Texts, rounds: usize) -> Self {
        let mut tried = Tried::new(texts);
        let facts = Facts {
            bytes: texts.deck.len(),
            state: texts.state.len(),
            lent: tried.lent(),
            ..Facts::default()
        };
        let ways = Way::READING.map(|way| (way, rounds));
        let times = Times::of(ways, |way, calls, cost| tried.time(way, calls, cost));
        Self {
            facts,
            runs: vec![times],
        }
    }

    /// The bytes that are read: of a state where there is one.
    pub fn read_bytes(&self) -> usize {
        match self.facts.state {
            0 => self.facts.bytes,
            state => state,
        }
    }

    /// Megabytes, of 1,000,000 bytes, that are read in a second; and of the runs the least and the greatest.
    pub fn megabytes_per_second(&self) -> (f64, (f64, f64)) {
        #[expect(clippy::cast_precision_loss, reason = "a few digits are shown")]
        let bytes = self.read_bytes() as f64;
        let speed = |milliseconds: f64| bytes / 1_000.0 / milliseconds;
        let in_runs = self.runs.iter().map(|times| {
            let median = |way| Spread::of(times.way(way).iter().copied()).median;
            speed(median(Way::ReadAll) - median(Way::ReadNothing))
        });
        let in_runs = in_runs.fold((f64::INFINITY, 0.0), |(least, greatest), speed| {
            (speed.min(least), speed.max(greatest))
        });
        (speed(self.beyond(Way::ReadAll, Way::ReadNothing)), in_runs)
    }
}
