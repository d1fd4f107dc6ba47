//! The second evaluator: both tests of a state, the deck's clauses being the original's.

use deck::{Axiom, Deck, Refusal};
use oracle::{Clause, Listing};

use crate::second::read::{Bad, read};
use crate::second::world::World;
use crate::second::{axioms, clauses, concepts};
use crate::verdict::{Test, Verdict};

/// The most variables of a clause that is tested.
pub const VARIABLES: usize = 4;

/// The verdict on a state's text, for a deck whose run gave this.
///
/// # Errors
/// Refusal 13 or 14.
pub fn judge(test: Test, deck: &Deck, listing: &Listing, state: &[u8]) -> Result<Verdict, Refusal> {
    let state = read(deck, listing.fresh, state).map_err(refused)?;
    let world = World::new(deck, &state);
    match test {
        Test::Axioms => Ok(axioms_verdict(&world, deck)),
        Test::Clauses if listing.clauses.iter().any(is_wide) => Err(WIDE),
        Test::Clauses => Ok(clauses_verdict(&world, &listing.clauses)),
    }
}

/// Refusal 14.
pub const WIDE: Refusal = Refusal {
    number: 14,
    line: 0,
};

/// Refusal 13.
#[must_use]
pub fn refused(bad: Bad) -> Refusal {
    Refusal {
        number: 13,
        line: bad.line,
    }
}

#[must_use]
pub fn is_wide(clause: &Clause) -> bool {
    clauses::variables(clause).len() > VARIABLES
}

/// The first axiom that is broken.
#[must_use]
pub fn axioms_verdict(world: &World, deck: &Deck) -> Verdict {
    let first = broken_axioms(world, deck).next();
    first.map_or(Verdict::Holds, |(place, _, elements)| {
        Verdict::Broken(deck.axiom_line(place), elements)
    })
}

/// All axioms that are broken: its place, the axiom, the least assignment.
pub fn broken_axioms<'a>(
    world: &'a World,
    deck: &'a Deck,
) -> impl Iterator<Item = (usize, &'a Axiom, Vec<u32>)> {
    let extents = concepts::extents(world, &deck.concepts);
    let axioms = deck.axioms.iter().enumerate();
    axioms.filter_map(move |(place, axiom)| {
        let elements = axioms::broken(world, &extents, axiom)?;
        Some((place, axiom, elements))
    })
}

/// The first clause that is broken.
#[must_use]
pub fn clauses_verdict(world: &World, all: &[Clause]) -> Verdict {
    let mut numbered = (0..).zip(all);
    let first = numbered.find_map(|(number, clause)| {
        let elements = clauses::broken(world, clause)?;
        Some(Verdict::Broken(number, elements))
    });
    first.unwrap_or(Verdict::Holds)
}
