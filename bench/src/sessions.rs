//! A deck as a session, with the tables that are lent for it, each call timed on a fresh copy of the session.

use std::hint::black_box;
use std::time::Duration;

use deck::Axiom;
use deck::limits::DECK_BYTES;
use deck::write::{axiom_row, line_bytes, row};

use crate::clock;
use crate::decks::{AXIOMS, Kind, REALISTIC, SEEDS};
use crate::in_rust::{self, SESSION_BYTES};
use crate::ours::Lent;
use crate::realistic::realistic;
use crate::ways::{Way, set_environment};

/// The calls of a session.
#[derive(Clone, Copy, Debug, PartialEq, Eq)]
pub enum Call {
    Start,
    Add,
    Strike,
    Options,
    Take,
}

impl Call {
    pub const ALL: [Self; 5] = [
        Self::Start,
        Self::Add,
        Self::Strike,
        Self::Options,
        Self::Take,
    ];
}

/// A call with what it is asked for.
#[derive(Clone, Copy)]
pub enum Asked<'a> {
    Start(&'a [u8]),
    Add(&'a [u8]),
    Strike(u32),
    Options(u32),
    Take,
}

/// What the calls of a deck are asked for.
struct Changes<'d> {
    deck: &'d [u8],
    /// The first axiom's line, which is added once more.
    line: Vec<u8>,
    /// That axiom, behind which most is to be moved.
    struck: u32,
    /// Other options than the deck's.
    options: u32,
}

impl Changes<'_> {
    fn of(&self, call: Call) -> Asked<'_> {
        match call {
            Call::Start => Asked::Start(self.deck),
            Call::Add => Asked::Add(&self.line),
            Call::Strike => Asked::Strike(self.struck),
            Call::Options => Asked::Options(self.options),
            Call::Take => Asked::Take,
        }
    }
}

pub struct Played<'d> {
    changes: Changes<'d>,
    /// The deck's own options.
    options: u32,
    lent: Lent,
    /// The session of the deck.
    live: Vec<u8>,
    /// A copy of it, on which the calls are made.
    table: Vec<u8>,
    is_fresh: bool,
}

impl<'d> Played<'d> {
    /// # Panics
    /// If the deck is refused or has no axiom.
    pub fn new(bytes: &'d [u8]) -> Self {
        let deck = deck::read(bytes).expect("a deck of the bench is accepted");
        let mut line = Vec::new();
        row(&mut line, &axiom_row(&deck.axioms[0]));
        let mut live = vec![0; SESSION_BYTES];
        assert!(in_rust::start(bytes, &mut live), "a start");
        let changes = Changes {
            deck: bytes,
            line,
            struck: deck.axiom_line(0),
            options: deck.options ^ 1,
        };
        Self {
            changes,
            options: deck.options,
            lent: Lent::to(bytes),
            table: live.clone(),
            live,
            is_fresh: true,
        }
    }

    /// Records of the tables that Gorvask is lent.
    pub fn lent(&self) -> [usize; 3] {
        self.lent.records()
    }

    /// Compares what Gorvask's calls leave with what those in Rust leave, and a taking with a run.
    ///
    /// # Panics
    /// If they differ.
    pub fn compare(&mut self) {
        for call in Call::ALL {
            let left = [Way::Session(call), Way::InRust(call)].map(|way| {
                self.freshen();
                if call == Call::Start {
                    self.table.fill(0xff);
                }
                assert!(self.call(way).1, "{}", way.name());
                self.table.clone()
            });
            assert!(left[0] == left[1], "{call:?} leaves another session");
        }
        let taken = self.lent.answer();
        self.lent.clausify(self.changes.deck);
        assert!(taken == self.lent.answer(), "a taking is no run");
    }

    /// The time of so many calls, of which each takes `cost` for the clock.
    ///
    /// # Panics
    /// If a call is not done.
    pub fn time(&mut self, way: Way, calls: u32, cost: Duration) -> Duration {
        set_environment(self.options);
        (0..calls)
            .map(|_| {
                self.freshen();
                let (time, is_done) = self.call(way);
                assert!(is_done, "{}", way.name());
                time.saturating_sub(cost)
            })
            .sum()
    }

    /// Copies the session anew, but not for the first call: so the counting of instructions has no copy in it.
    fn freshen(&mut self) {
        if !self.is_fresh {
            self.table.copy_from_slice(&self.live);
        }
        self.is_fresh = false;
    }

    /// A call's time, and whether it is done.
    fn call(&mut self, way: Way) -> (Duration, bool) {
        let (lent, table) = (&mut self.lent, black_box(&mut self.table[..]));
        let changes = black_box(&self.changes);
        let (time, reply) = match way {
            Way::Session(call) => clock::timed(|| lent.ask(changes.of(call), table)),
            Way::Clausify => clock::timed(|| lent.clausify(changes.deck)),
            Way::StartAndClausify => clock::timed(|| {
                let reply = lent.ask(Asked::Start(changes.deck), table);
                reply | lent.clausify(changes.deck)
            }),
            Way::InRust(call) => return in_rust(changes.of(call), table),
            _ => unreachable!("a way of a deck or a state"),
        };
        (time, reply == 0)
    }
}

/// The same of a call in Rust. What a taking hands back is freed when the clock stands still.
fn in_rust(asked: Asked<'_>, table: &mut [u8]) -> (Duration, bool) {
    match asked {
        Asked::Start(deck) => clock::timed(|| in_rust::start(deck, table)),
        Asked::Add(line) => clock::timed(|| in_rust::add(line, table)),
        Asked::Strike(line) => clock::timed(|| in_rust::strike(line, table)),
        Asked::Options(options) => clock::timed(|| in_rust::options(options, table)),
        Asked::Take => {
            let (time, taken) = clock::timed(|| black_box(in_rust::take(table)));
            (time, taken.is_some())
        }
    }
}

pub const JUNCTION: &str = "junction";
pub const FILLED: &str = "realistic, nearly 65,536 bytes";

/// The decks whose sessions are measured.
pub fn kinds() -> Vec<Kind> {
    let kind = |name, decks| Kind { name, decks };
    let junction = include_bytes!("../../examples/junction.deck");
    vec![
        kind(JUNCTION, vec![junction.to_vec()]),
        kind(
            REALISTIC,
            SEEDS.map(|seed| realistic(seed, AXIOMS)).to_vec(),
        ),
        kind(FILLED, vec![filled()]),
    ]
}

/// The largest of the realistic decks with disjointnesses of eight classes behind it, as many as leave room for a line that is
/// added.
fn filled() -> Vec<u8> {
    let mut text = realistic(SEEDS[SEEDS.len() - 1], AXIOMS);
    let deck = deck::read(&text).expect("a deck of the bench is accepted");
    let first = line_bytes(axiom_row(&deck.axioms[0]).len());
    let mut lists = (0..).map(|list| {
        // Each class's concept has its number.
        let members = (0..8).map(|place| (list + 37 * place) % deck.classes);
        axiom_row(&Axiom::DisjointClasses(members.collect()))
    });
    while text.len() + line_bytes(9) + first <= DECK_BYTES {
        row(&mut text, &lists.next().expect("a list"));
    }
    text
}

#[cfg(test)]
mod tests {
    use deck::limits::{AXIOMS, DECK_BYTES};

    use super::{Call, Changes, Played, filled, in_rust, kinds};

    #[test]
    fn every_call_in_rust_is_done_on_a_fresh_copy() {
        for deck in kinds().iter().flat_map(|kind| &kind.decks) {
            let mut played = Played::new(deck);
            for call in Call::ALL {
                played.freshen();
                assert!(played.table == played.live);
                let asked = played.changes.of(call);
                assert!(in_rust(asked, &mut played.table).1, "{call:?}");
                let is_left = matches!(call, Call::Start | Call::Take);
                assert_eq!(played.table == played.live, is_left, "{call:?}");
            }
            let Changes { line, struck, .. } = &played.changes;
            let lines: Vec<_> = deck.split_inclusive(|&byte| byte == b'\n').collect();
            assert_eq!(lines[*struck as usize - 1], line);
        }
    }

    #[test]
    fn the_filled_deck_has_room_for_one_line() {
        let text = filled();
        assert!((65_400..DECK_BYTES).contains(&text.len()), "{}", text.len());
        let deck = deck::read(&text).expect("an accepted deck");
        assert!(deck.axioms.len() < AXIOMS);
        assert!(oracle::run(&deck, &oracle::Limits::LARGEST).answer.is_ok());
    }
}
