//! The ways from a deck to its clauses, each a call that can be timed.

use std::hint::black_box;
use std::time::Duration;

use oracle::{Clause, unmodified};
use rustdl::clause::{ClauseStats, DlClause, clausify_with_stats};
use rustdl::ontology::InternalOntology;

use crate::clock;
use crate::decks::Known;
use crate::ours::{self, Ours, Words};
use crate::sessions::Call;

/// What is timed.
#[derive(Clone, Copy, Debug, PartialEq, Eq)]
pub enum Way {
    /// From the deck's bytes to filled tables.
    Gorvask,
    /// The same by a new clausifier, with the making of its tables and their growth.
    First,
    /// From the deck's bytes to clauses: the reader of the tests, conversion, `clausify_with_stats`.
    Rust,
    /// `clausify_with_stats` alone.
    RustAlone,
    /// The reader of the tests, and conversion.
    RustReading,
    /// Zeros over tables of the lent sizes.
    ClearTables,
    /// Zeros over scratch.
    ClearScratch,
    /// `clausify_with_stats` of the C interface.
    Clausify,
    /// `try_axioms` of the C interface.
    Axioms,
    /// `try_clauses` of the C interface.
    Clauses,
    /// The second evaluator's verdict on the axioms.
    SecondAxioms,
    /// The second evaluator's verdict on the clauses.
    SecondClauses,
    /// A text that is refused at its last line.
    ReadAll,
    /// One that is refused at its first.
    ReadNothing,
    /// A call of a session through the C interface.
    Session(Call),
    /// A start of a session, then `clausify_with_stats` of the C interface.
    StartAndClausify,
    /// A session's call in plain Rust.
    InRust(Call),
}

impl Way {
    const RUST: [Self; 3] = [Self::Rust, Self::RustAlone, Self::RustReading];
    const OURS: [Self; 4] = [
        Self::Gorvask,
        Self::First,
        Self::ClearTables,
        Self::ClearScratch,
    ];
    /// The C interface, of a deck and a state.
    pub const OF_STATES: [Self; 3] = [Self::Clausify, Self::Axioms, Self::Clauses];
    /// The second evaluator.
    pub const SECOND: [Self; 2] = [Self::SecondAxioms, Self::SecondClauses];
    /// The reading of a deck or a state.
    pub const READING: [Self; 2] = [Self::ReadAll, Self::ReadNothing];

    /// The calls of a session, and what they are measured by.
    pub const SESSION: [Self; 7] = [
        Self::Clausify,
        Self::StartAndClausify,
        Self::Session(Call::Start),
        Self::Session(Call::Add),
        Self::Session(Call::Strike),
        Self::Session(Call::Options),
        Self::Session(Call::Take),
    ];
    /// The same calls in plain Rust.
    const IN_RUST: [Self; 5] = [
        Self::InRust(Call::Start),
        Self::InRust(Call::Add),
        Self::InRust(Call::Strike),
        Self::InRust(Call::Options),
        Self::InRust(Call::Take),
    ];

    /// All that are timed of a deck.
    pub fn timed() -> Vec<Self> {
        let ours = Self::OURS.into_iter().filter(|_| ours::MEASURED);
        ours.chain(Self::RUST).collect()
    }

    /// All that are timed of a session.
    pub fn of_sessions() -> impl Iterator<Item = Self> {
        Self::SESSION.into_iter().chain(Self::IN_RUST)
    }

    /// The three whose growth is shown and whose instructions are counted, or without ours the Rust's two.
    pub fn shown(ours: bool) -> Vec<Self> {
        let shown = [Self::Gorvask, Self::Rust, Self::RustAlone];
        shown[usize::from(!ours)..].to_vec()
    }

    pub fn name(self) -> &'static str {
        match self {
            Self::Gorvask => "Gorvask",
            Self::First => "Gorvask, first call",
            Self::Rust => "Rust",
            Self::RustAlone => "Rust alone",
            Self::RustReading => "reading and conversion",
            Self::ClearTables => "clearing tables",
            Self::ClearScratch => "clearing scratch",
            Self::Clausify => "clausify",
            Self::Axioms => "axioms",
            Self::Clauses => "clauses",
            Self::SecondAxioms => "second evaluator, axioms",
            Self::SecondClauses => "second evaluator, clauses",
            Self::ReadAll => "refused at the last line",
            Self::ReadNothing => "refused at the first line",
            Self::Session(Call::Start) => "start",
            Self::Session(Call::Add) => "add",
            Self::Session(Call::Strike) => "strike",
            Self::Session(Call::Options) => "options",
            Self::Session(Call::Take) => "take",
            Self::StartAndClausify => "start and clausify",
            Self::InRust(Call::Start) => "Rust, start",
            Self::InRust(Call::Add) => "Rust, add",
            Self::InRust(Call::Strike) => "Rust, strike",
            Self::InRust(Call::Options) => "Rust, options",
            Self::InRust(Call::Take) => "Rust, take",
        }
    }

    pub fn named(name: &str) -> Option<Self> {
        let of_decks = Self::OURS.into_iter().chain(Self::RUST);
        let of_states = Self::OF_STATES.into_iter().chain(Self::SECOND);
        let mut all = of_decks
            .chain(of_states)
            .chain(Self::READING)
            .chain(Self::of_sessions());
        all.find(|way| way.name() == name)
    }
}

/// A deck with everything that is made before the clock runs.
pub struct Prepared<'d> {
    bytes: &'d [u8],
    options: u32,
    ontology: InternalOntology,
    ours: Ours,
}

impl<'d> Prepared<'d> {
    /// # Panics
    /// If the deck is refused.
    pub fn new(bytes: &'d [u8]) -> Self {
        let deck = deck::read(bytes).expect("a deck of the bench is accepted");
        Self {
            bytes,
            options: deck.options,
            ontology: load(&deck),
            ours: Ours::new(bytes),
        }
    }

    /// Records of the tables that Gorvask is lent.
    pub fn lent(&self) -> [usize; 3] {
        self.ours.lent()
    }

    /// What is timed of the deck: of one with option 4 or 8, which the Rust has not, Gorvask alone.
    pub fn ways(&self) -> Vec<Way> {
        let mut ways = Way::timed();
        ways.retain(|way| self.options < 4 || !Way::RUST.contains(way));
        ways
    }

    /// The Rust's clauses and statistics, with option 4 or 8 those of its instrumented copy.
    fn of_rust(&self) -> (Vec<Clause>, [u32; 8]) {
        if self.options >= 4 {
            let listing = Known::of(self.bytes).listing;
            return (listing.clauses, listing.stats);
        }
        set_environment(self.options);
        let (clauses, stats) = clausify_with_stats(&self.ontology);
        let clauses = clauses.iter().map(unmodified::clause);
        (clauses.collect(), unmodified::stats(&stats))
    }

    /// Compares Gorvask's clauses and statistics with the Rust's.
    ///
    /// # Panics
    /// If they differ.
    pub fn compare(&mut self) {
        let (clauses, stats) = self.of_rust();
        let words: Vec<Words<'_>> = clauses
            .iter()
            .map(|clause| (&clause.body[..], &clause.head[..]))
            .collect();
        let same = self.ours.has(self.bytes, &words, stats);
        assert!(same, "Gorvask's clauses differ from the Rust's");
    }

    /// The time of so many calls, of which each takes `cost` for the clock. What a call hands back is freed when the
    /// clock stands still.
    pub fn time(&mut self, way: Way, calls: u32, cost: Duration) -> Duration {
        set_environment(self.options);
        (0..calls)
            .map(|_| self.call(way).saturating_sub(cost))
            .sum()
    }

    fn call(&mut self, way: Way) -> Duration {
        let bytes = black_box(self.bytes);
        match way {
            Way::Gorvask => timed(|| self.ours.clausify(bytes)),
            Way::First => timed(|| ours::first(bytes)),
            Way::Rust => timed(|| from_bytes(bytes)),
            Way::RustAlone => timed(|| clausify_with_stats(black_box(&self.ontology))),
            Way::RustReading => timed(|| read(bytes)),
            Way::ClearTables => timed(|| self.ours.clear_tables()),
            Way::ClearScratch => timed(|| self.ours.clear_scratch()),
            _ => unreachable!("a way of a state or a session"),
        }
    }
}

/// The original reads its options from the environment.
pub fn set_environment(options: u32) {
    let switch = |bit: u32| if options & bit == 0 { "0" } else { "1" };
    // SAFETY: the bench has one thread.
    unsafe {
        std::env::set_var("RUSTDL_WEDGE_BODY_DECOMPOSE", switch(1));
        std::env::set_var("RUSTDL_CARD_DISJUNCT_ATOMS", switch(2));
    }
}

fn timed<T>(call: impl FnOnce() -> T) -> Duration {
    clock::timed(|| black_box(call())).0
}

fn read(bytes: &[u8]) -> InternalOntology {
    load(&deck::read(bytes).expect("a deck of the bench is accepted"))
}

/// The original's ontology.
pub fn load(deck: &deck::Deck) -> InternalOntology {
    unmodified::load(deck, |_, _, _| None).expect("a deck without Min 0")
}

fn from_bytes(bytes: &[u8]) -> (Vec<DlClause>, ClauseStats) {
    clausify_with_stats(&read(bytes))
}
