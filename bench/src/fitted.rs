//! Realistic decks that hold in a full state: what the state breaks is drawn anew, the forms of the axioms as often as ever.

use deck::{Axiom, Concept};
use states::second::axioms;
use states::second::concepts::extent;
use states::second::state::State;
use states::second::world::World;

use crate::decks::Known;
use crate::fresh;
use crate::layout::layout;
use crate::realistic::{Form, Junction};

/// So often an axiom of a form is drawn before another form is.
const TRIES: usize = 100_000;

/// A deck of so many axioms and a state in which they hold, and their clauses too.
pub fn fitted(seed: u64, axioms: u32) -> (Vec<u8>, State) {
    let mut junction = Junction::new(seed, axioms);
    let mut state = layout(&mut junction.rng, junction.draft.deck());
    let mut fit = Fit {
        world: World::new(junction.draft.deck(), &state),
        junction,
        extents: Vec::new(),
    };
    fit.note_concepts();
    while fit.junction.draft.axioms() < axioms as usize {
        let form = fit.junction.form();
        if let Some(axiom) = fit.draw(form) {
            fit.junction.add(axiom);
        }
    }
    let deck = fit.junction.draft.bytes();
    fresh::choose(&Known::of(&deck), &mut state);
    (deck, state)
}

struct Fit {
    world: World,
    junction: Junction,
    /// Of each concept its elements.
    extents: Vec<Vec<u32>>,
}

impl Fit {
    /// An axiom of that form that holds.
    fn draw(&mut self, form: Form) -> Option<Axiom> {
        let concepts = self.extents.len();
        for _ in 0..TRIES {
            if let Some(axiom) = self.junction.draw(form) {
                self.note_concepts();
                if self.fits(&axiom) {
                    return Some(axiom);
                }
            }
            self.junction.draft.cut(concepts);
            self.extents.truncate(concepts);
        }
        None
    }

    /// The elements of the concepts that are new.
    fn note_concepts(&mut self) {
        let concepts = &self.junction.draft.deck().concepts;
        for concept in &concepts[self.extents.len()..] {
            let extent = extent(&self.world, &self.extents, concept);
            self.extents.push(extent);
        }
    }

    fn fits(&self, axiom: &Axiom) -> bool {
        !self.is_wide(axiom) && axioms::broken(&self.world, &self.extents, axiom).is_none()
    }

    /// Whether a condition has so many parts that its clause has over four variables, and so few that its body stays whole:
    /// the test of clauses would be refused.
    fn is_wide(&self, axiom: &Axiom) -> bool {
        let Axiom::SubClassOf(sub, _) = *axiom else {
            return false;
        };
        let concepts = &self.junction.draft.deck().concepts;
        matches!(&concepts[sub as usize], Concept::And(parts) if (4..8).contains(&parts.len()))
    }
}

#[cfg(test)]
mod tests {
    use states::second::judge::judge;
    use states::second::{axioms, clauses};
    use states::{Test, Verdict};

    use super::fitted;
    use crate::decks::{AXIOMS, Known};

    #[test]
    fn decks_and_their_clauses_hold() {
        let (deck, state) = fitted(120, AXIOMS);
        let Known { deck, listing } = Known::of(&deck);
        let text = state.write();
        for test in Test::BOTH {
            let verdict = judge(test, &deck, &listing, &text);
            assert_eq!(verdict, Ok(Verdict::Holds), "{}", test.name());
        }
        assert!(listing.fresh > 0);
        // All kinds but equivalent and reflexive roles, which no form has.
        let mut kinds: Vec<u32> = deck.axioms.iter().map(axioms::kind).collect();
        kinds.sort_unstable();
        kinds.dedup();
        let forms = (21..=33).chain([36]);
        assert_eq!(kinds, forms.collect::<Vec<u32>>());
        let variables = listing.clauses.iter().map(clauses::variables);
        assert_eq!(variables.map(|all| all.len()).max(), Some(3));
    }
}
