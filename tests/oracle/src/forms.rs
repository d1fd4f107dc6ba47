//! The text that the program `normalforms` prints for a deck, from the original's pool and axioms.

use deck::write::{axiom_row, concept_row, row};
use deck::{Concept, Refusal, read};

use crate::{Limits, Normalised, has_min_zero, normalise, number};

/// A deck's normal form, or its refusal.
#[derive(Clone, Debug, PartialEq, Eq)]
pub struct Forms {
    pub text: Vec<u8>,
    pub refusal: Option<Refusal>,
    /// The deck has a Min 0 line, which the instrumented copy alone can hold.
    pub min_zero: bool,
    /// The greatest number that each limit was tested against.
    pub most: Limits,
}

/// The normal form of a deck's bytes: the reading's refusal, or what the original makes of it under these limits.
#[must_use]
pub fn forms(bytes: &[u8], limits: &Limits) -> Forms {
    let deck = match read(bytes) {
        Ok(deck) => deck,
        Err(refusal) => {
            return Forms {
                text: refused(refusal),
                refusal: Some(refusal),
                min_zero: false,
                most: Limits::default(),
            };
        }
    };
    let (answer, most) = normalise(&deck, limits);
    Forms {
        text: match &answer {
            Ok(normalised) => text(normalised, number(most.visits)),
            Err(refusal) => refused(*refusal),
        },
        refusal: answer.err(),
        min_zero: has_min_zero(&deck),
        most,
    }
}

fn refused(refusal: Refusal) -> Vec<u8> {
    let mut text = Vec::new();
    row(&mut text, &[49, refusal.number, refusal.line]);
    text
}

/// A line for each record of the pool, a line for each axiom, then 44, visits, concepts, list members.
fn text((pool, axioms): &Normalised, visits: u32) -> Vec<u8> {
    let mut text = Vec::new();
    let mut members = 0;
    for concept in pool {
        row(&mut text, &record(concept));
        if let Concept::And(list) | Concept::Or(list) = concept {
            members += list.len();
        }
    }
    for axiom in axioms {
        row(&mut text, &axiom_row(axiom));
    }
    row(
        &mut text,
        &[44, visits, number(pool.len()), number(members)],
    );
    text
}

/// Kind, role code, number and child, each 0 where unused; of And and Or the kind and the members.
fn record(concept: &Concept) -> Vec<u32> {
    match *concept {
        Concept::Top => vec![1, 0, 0, 0],
        Concept::Bot => vec![2, 0, 0, 0],
        Concept::Atomic(class) => vec![3, 0, class, 0],
        Concept::Nominal(individual) => vec![4, 0, individual, 0],
        Concept::SelfRestriction(role) => vec![5, role, 0, 0],
        Concept::Not(part) => vec![6, 0, 0, part],
        Concept::And(_) | Concept::Or(_) => concept_row(concept),
        Concept::Some(role, part) => vec![9, role, 0, part],
        Concept::All(role, part) => vec![10, role, 0, part],
        Concept::Min(n, role, part) => vec![11, role, n, part],
        Concept::Max(n, role, part) => vec![12, role, n, part],
    }
}
