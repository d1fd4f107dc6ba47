//! The text that the program `clauses` prints for a deck: the original's clauses once every axiom is clausified, before
//! the later passes.

use deck::write::row;
use deck::{Deck, Refusal, read};

use crate::{Limits, Pass, Passed, Settled, has_min_zero, number, run_with_stages};

/// A deck's clauses before the later passes, or its refusal.
#[derive(Clone, Debug, PartialEq, Eq)]
pub struct Clauses {
    pub text: Vec<u8>,
    pub refusal: Option<Refusal>,
    /// The deck has a Min 0 line, which the instrumented copy alone can hold.
    pub min_zero: bool,
    /// What there was after the last axiom.
    pub passed: Option<Passed>,
    /// What came of option 4.
    pub settled: Settled,
}

/// The clauses of a deck's bytes: the reading's refusal, or what the original makes of it under these limits.
#[must_use]
pub fn clauses(bytes: &[u8], limits: &Limits) -> Clauses {
    match read(bytes) {
        Ok(deck) => of_deck(&deck, limits),
        Err(refusal) => refused(refusal, false, Settled::default()),
    }
}

fn of_deck(deck: &Deck, limits: &Limits) -> Clauses {
    let min_zero = has_min_zero(deck);
    let mut run = run_with_stages(deck, limits);
    match (run.stages.passes.remove(&Pass::Axioms), run.answer) {
        (Some(passed), _) => Clauses {
            text: text(&passed, deck.classes + deck.individuals),
            refusal: None,
            min_zero,
            passed: Some(passed),
            settled: run.settled,
        },
        (None, Err(refusal)) => refused(refusal, min_zero, run.settled),
        (None, Ok(_)) => unreachable!("a run that ends has passed all axioms"),
    }
}

fn refused(refusal: Refusal, min_zero: bool, settled: Settled) -> Clauses {
    let mut text = Vec::new();
    row(&mut text, &[49, refusal.number, refusal.line]);
    Clauses {
        text,
        refusal: Some(refusal),
        min_zero,
        passed: None,
        settled,
    }
}

/// Lines 41 and 42 as the lister has them; 45, line and kind of each deferral; then 44, clauses, atoms, deferrals, next
/// fresh class, visits, concepts, list members.
fn text(passed: &Passed, first_fresh: u32) -> Vec<u8> {
    let mut text = Vec::new();
    let mut atoms = 0;
    for (place, clause) in (0..).zip(&passed.clauses) {
        clause.write(place, &mut text);
        atoms += clause.body.len() + clause.head.len();
    }
    for &(line, kind) in &passed.deferrals {
        row(&mut text, &[45, line, kind]);
    }
    let used = [
        number(passed.clauses.len()),
        number(atoms),
        number(passed.deferrals.len()),
        first_fresh + passed.fresh,
        passed.visits,
        passed.concepts,
        passed.members,
    ];
    row(&mut text, &[&[44], &used[..]].concat());
    text
}
