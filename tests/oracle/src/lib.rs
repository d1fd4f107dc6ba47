//! What the original clausifier answers to a deck: from its unmodified build and from its instrumented copy, which must
//! agree. The copy alone has options 4 and 8.

mod clauses;
pub mod decided;
pub mod followed_maps;
pub mod following;
mod forms;
mod listing;
pub mod met;
pub mod replay;
pub mod sampling;
mod stages;

/// The unmodified build.
pub mod unmodified {
    use rustdl as library;
    include!("bridge.rs");
}

/// The instrumented copy.
mod instrumented {
    use limited as library;
    include!("bridge.rs");
}

use std::borrow::Cow;
use std::collections::BTreeMap;
use std::sync::{Mutex, PoisonError};

pub use clauses::{Clauses, clauses};
use deck::{Axiom, Concept, Deck, Refusal};
pub use forms::{Forms, forms};
pub use limited::limits::{Limits, Pass, Settled};
use limited::limits::{Options, Settings};
pub use listing::{Answer, Clause, Listing};
pub use stages::{Passed, Stages};

/// The answer to a deck's bytes: the reading's refusal, or [`answer_deck`].
#[must_use]
pub fn answer(bytes: &[u8], limits: &Limits) -> Answer {
    deck::read(bytes).map_or_else(Answer::Refused, |deck| answer_deck(&deck, limits))
}

/// The answer to a deck that the reading accepts; with option 4 or 8 the instrumented copy's alone.
///
/// # Panics
/// If the unmodified build gives other clauses or statistics than the instrumented copy.
#[must_use]
pub fn answer_deck(deck: &Deck, limits: &Limits) -> Answer {
    if has_min_zero(deck) {
        return Answer::CannotHold;
    }
    match run(deck, limits).answer {
        Ok(listing) => {
            assert_agreed(deck, &listing);
            Answer::Accepted(listing)
        }
        Err(refusal) => Answer::Refused(refusal),
    }
}

/// Has the unmodified build answer a deck that the instrumented copy has accepted, unless there is a Min 0 line or option 4 or
/// 8. A deck that is refused may be too much for it.
///
/// # Panics
/// If it gives other clauses or statistics.
pub fn assert_agreed(deck: &Deck, listing: &Listing) {
    if has_min_zero(deck) || has_equal_names(deck) || follows_roles(deck) {
        return;
    }
    let (clauses, stats) = run_unmodified(deck);
    assert_eq!(
        (&listing.clauses, &listing.stats),
        (&clauses, &stats),
        "the two builds differ on {deck:?}"
    );
}

/// Like [`answer`], but a Min 0 line is held as a record of its own, by the instrumented copy alone.
#[must_use]
pub fn answer_min_zero(bytes: &[u8], limits: &Limits) -> Answer {
    match deck::read(bytes) {
        Ok(deck) if has_min_zero(&deck) => run(&deck, limits)
            .answer
            .map_or_else(Answer::Refused, Answer::Accepted),
        Ok(deck) => answer_deck(&deck, limits),
        Err(refusal) => Answer::Refused(refusal),
    }
}

/// Whether a deck has a Min 0 line, which the instrumented copy alone can hold.
#[must_use]
pub fn has_min_zero(deck: &Deck) -> bool {
    deck.concepts
        .iter()
        .any(|concept| matches!(concept, Concept::Min(0, _, _)))
}

/// Whether a deck has option 4, which the instrumented copy alone has.
#[must_use]
pub fn has_equal_names(deck: &Deck) -> bool {
    deck.options & 4 != 0
}

/// Whether a deck has option 8, which the instrumented copy alone has.
#[must_use]
pub fn follows_roles(deck: &Deck) -> bool {
    deck.options & 8 != 0
}

/// A run of the instrumented copy.
#[derive(Clone, Debug, PartialEq, Eq)]
pub struct Run {
    pub answer: Result<Listing, Refusal>,
    /// The greatest number that each limit was tested against.
    pub most: Limits,
    /// How many clauses there were after each pass, as far as the run came.
    pub lengths: BTreeMap<Pass, usize>,
    /// What came of option 4.
    pub settled: Settled,
    /// The most steps that a role was followed.
    pub steps: usize,
    pub stages: Stages,
}

impl Run {
    /// The deck's run in tables of so many records, where this is its run in the largest.
    #[must_use]
    pub fn in_rooms(&self, deck: &Deck, rooms: [usize; 3]) -> Cow<'_, Self> {
        let refusal = self.answer.as_ref().err();
        let ended_in_tables = refusal.is_some_and(|refusal| refusal.number == 12);
        let used = self.most.rooms();
        // Tables that it does not fill leave a run as it is.
        if !ended_in_tables && (0..3).all(|place| used[place] <= rooms[place]) {
            Cow::Borrowed(self)
        } else {
            Cow::Owned(run(deck, &Limits::tables(rooms)))
        }
    }
}

/// Runs the instrumented copy alone. Min 0 lines are held.
#[must_use]
pub fn run(deck: &Deck, limits: &Limits) -> Run {
    run_instrumented(deck, limits, false)
}

/// [`run`], with the stages that it passes.
#[must_use]
pub fn run_with_stages(deck: &Deck, limits: &Limits) -> Run {
    run_instrumented(deck, limits, true)
}

fn run_instrumented(deck: &Deck, limits: &Limits, keep_stages: bool) -> Run {
    let (ontology, settings) = instrumented_deck(deck, limits, keep_stages);
    let (answer, report) = limited::clausify(&ontology, settings);
    let listing = |(clauses, stats): (Vec<_>, _)| Listing {
        clauses: clauses.iter().map(instrumented::clause).collect(),
        stats: instrumented::stats(&stats),
        fresh: number(report.fresh),
        visits: number(report.most.visits),
        deferrals: report.deferrals.clone(),
    };
    Run {
        answer: answer.map(listing).map_err(|refused| Refusal {
            number: refused.number,
            line: refused.line,
        }),
        most: report.most,
        lengths: report.lengths,
        settled: report.settled,
        steps: report.steps,
        stages: Stages::from(&report.stages),
    }
}

/// The deck as the instrumented copy takes it, Min 0 lines held.
fn instrumented_deck(
    deck: &Deck,
    limits: &Limits,
    keep_stages: bool,
) -> (limited::ontology::InternalOntology, Settings) {
    let ontology = instrumented::load(deck, |pool, role, part| Some(pool.min_zero(role, part)))
        .expect("every line is held");
    let options = Options {
        decompose: decomposes(deck),
        card_disjunct_atoms: has_card_disjunct_atoms(deck),
        equal_names: has_equal_names(deck),
        follow_roles: follows_roles(deck),
    };
    let settings = Settings {
        limits: *limits,
        options,
        first_line: deck.axiom_line(0),
        keep_stages,
    };
    (ontology, settings)
}

/// The pool's records and the axioms once all axioms are normalised.
pub type Normalised = (Vec<Concept>, Vec<Axiom>);

/// [`Normalised`], from the instrumented copy, or refusal 10 or 11; and what the run used.
///
/// # Panics
/// If the unmodified build, which holds no Min 0 line, gives other records or axioms.
fn normalise(deck: &Deck, limits: &Limits) -> (Result<Normalised, Refusal>, Limits) {
    let (ontology, settings) = instrumented_deck(deck, limits, false);
    let (answer, report) = limited::normalise(&ontology, settings);
    let answer = answer
        .map(|(pool, axioms)| instrumented::lines(&pool, &axioms))
        .map_err(|refused| Refusal {
            number: refused.number,
            line: refused.line,
        });
    if let Ok(normalised) = &answer
        && !has_min_zero(deck)
    {
        let mut ontology = unmodified::load(deck, |_, _, _| None).expect("a deck without Min 0");
        let axioms = rustdl::normalize::nnf_axioms(&mut ontology);
        let unmodified = unmodified::lines(&ontology.concepts, &axioms);
        assert_eq!(*normalised, unmodified, "the two builds differ on {deck:?}");
    }
    (answer, report.most)
}

/// The original reads its options from the environment of the process.
static ENVIRONMENT: Mutex<()> = Mutex::new(());

fn run_unmodified(deck: &Deck) -> (Vec<Clause>, [u32; 8]) {
    let ontology = unmodified::load(deck, |_, _, _| None).expect("a deck without Min 0");
    let environment = ENVIRONMENT.lock().unwrap_or_else(PoisonError::into_inner);
    let switch = |on| if on { "1" } else { "0" };
    // SAFETY: the lock is held, and nothing else in the process changes the environment.
    unsafe {
        std::env::set_var("RUSTDL_WEDGE_BODY_DECOMPOSE", switch(decomposes(deck)));
        std::env::set_var(
            "RUSTDL_CARD_DISJUNCT_ATOMS",
            switch(has_card_disjunct_atoms(deck)),
        );
    }
    let (clauses, stats) = rustdl::clause::clausify_with_stats(&ontology);
    drop(environment);
    (
        clauses.iter().map(unmodified::clause).collect(),
        unmodified::stats(&stats),
    )
}

fn decomposes(deck: &Deck) -> bool {
    deck.options & 1 != 0
}

fn has_card_disjunct_atoms(deck: &Deck) -> bool {
    deck.options & 2 != 0
}

/// A count as a word.
fn number(count: usize) -> u32 {
    u32::try_from(count).expect("a count fits in a word")
}
