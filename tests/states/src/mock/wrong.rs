//! Wrong evaluators: the second one, with one thing changed.

use std::collections::BTreeMap;

use deck::{Axiom, Concept, Deck, Refusal};
use oracle::{Clause, Listing};

use super::Fault;
use crate::second::judge::{WIDE, broken_axioms, is_wide, refused};
use crate::second::least::least;
use crate::second::read::{Rule, read, read_without};
use crate::second::state::{ELEMENTS, State};
use crate::second::world::World;
use crate::second::{axioms, clauses};
use crate::verdict::{Test, Verdict};

/// Refusal 13 of a state that is bad whatever the run is.
pub fn bad_state(deck: &[u8], state: &[u8]) -> Option<Refusal> {
    let deck = deck::read(deck).ok()?;
    let bad = read(&deck, 0, state).err()?;
    (bad.rule != Rule::Class).then(|| refused(bad))
}

pub fn judge(
    test: Test,
    deck: &Deck,
    listing: &Listing,
    bytes: &[u8],
    store: usize,
    fault: Fault,
) -> Result<Verdict, Refusal> {
    let has_wide = listing.clauses.iter().any(is_wide);
    let tests_clauses = test == Test::Clauses;
    if tests_clauses && has_wide && fault == Fault::WideBeforeState {
        return Err(WIDE);
    }
    let without = match fault {
        Fault::Without(rule) => Some(rule),
        _ => None,
    };
    let mut state = read_without(without, deck, listing.fresh, bytes).map_err(refused)?;
    // Too many to go through, or none.
    if !(1..=ELEMENTS).contains(&state.size) {
        return Ok(Verdict::Holds);
    }
    spoil(&mut state, deck, store, fault);
    let world = World::new(deck, &state);
    let broken = if tests_clauses {
        broken_clauses(&world, &listing.clauses, fault)?
    } else {
        broken_by(&world, &misread(deck, fault), fault)
    };
    Ok(verdict(broken, state.size, fault))
}

/// What is broken, each with its line or number and what it shows.
type Broken = Vec<(u32, Vec<u32>)>;

fn verdict(broken: Broken, size: u32, fault: Fault) -> Verdict {
    let mut broken = broken.into_iter();
    let told = match fault {
        Fault::Last => broken.next_back(),
        _ => broken.next(),
    };
    let Some((number, mut elements)) = told else {
        return Verdict::Holds;
    };
    if fault == Fault::Greatest {
        for element in &mut elements {
            *element = size - 1 - *element;
        }
    }
    Verdict::Broken(number, elements)
}

/// Makes the state another one.
fn spoil(state: &mut State, deck: &Deck, store: usize, fault: Fault) {
    let first_fresh = deck.classes + deck.individuals;
    let room = u32::try_from(store / 8).expect("some megabytes");
    match fault {
        Fault::EmptyBeyondTheRoom => state.classes.retain(|&class, _| class < room),
        Fault::FreshEmpty => state.classes.retain(|&class, _| class < first_fresh),
        Fault::Greatest => *state = mirrored(state),
        _ => {}
    }
}

fn broken_by(world: &World, deck: &Deck, fault: Fault) -> Broken {
    let mut broken: BTreeMap<usize, Vec<u32>> = broken_axioms(world, deck)
        .filter(|(_, axiom, _)| fault != Fault::ReadOnlySkipped || axioms::kind(axiom) < 32)
        .map(|(place, _, elements)| (place, elements))
        .collect();
    if fault == Fault::EqualCodesClash {
        for (place, axiom) in deck.axioms.iter().enumerate() {
            if let Axiom::DisjointRoles(list) = axiom
                && let Some(pair) = by_place(world, list)
            {
                broken.insert(place, pair);
            }
        }
    }
    let line = |place: usize| match fault {
        Fault::AxiomNumber => deck.axiom_line(place) - deck.axiom_line(0),
        _ => deck.axiom_line(place),
    };
    broken
        .into_iter()
        .map(|(place, elements)| (line(place), elements))
        .collect()
}

/// The least pair that two places of a list of roles have.
fn by_place(world: &World, list: &[u32]) -> Option<Vec<u32>> {
    least(world.size, 2, |at| {
        let having = list
            .iter()
            .filter(|&&role| world.is_related(role, at[0], at[1]));
        having.count() <= 1
    })
}

fn broken_clauses(world: &World, all: &[Clause], fault: Fault) -> Result<Broken, Refusal> {
    let most = match fault {
        Fault::FiveVariablesPass => 5,
        _ => 4,
    };
    let is_wide = |clause: &Clause| clauses::variables(clause).len() > most;
    if fault != Fault::WideWhereReached && all.iter().any(is_wide) {
        return Err(WIDE);
    }
    let mut broken = Vec::new();
    for (number, clause) in (0..).zip(all) {
        if is_wide(clause) {
            return if broken.is_empty() {
                Err(WIDE)
            } else {
                Ok(broken)
            };
        }
        let mut clause = clause.clone();
        if fault == Fault::InverseNotTurned {
            let atoms = clause.body.iter_mut().chain(&mut clause.head);
            atoms.for_each(|atom| atom[1] &= !1);
        }
        if let Some(elements) = clauses::broken(world, &clause) {
            broken.push((number, elements));
            if fault != Fault::Last {
                break;
            }
        }
    }
    Ok(broken)
}

/// The deck as a wrong evaluator reads it.
fn misread(deck: &Deck, fault: Fault) -> Deck {
    let mut deck = deck.clone();
    match fault {
        Fault::EqualEntriesPass => {
            for axiom in &mut deck.axioms {
                if let Axiom::DisjointClasses(list) | Axiom::DisjointUnion(_, list) = axiom {
                    list.sort_unstable();
                    list.dedup();
                }
            }
        }
        Fault::InverseNotTurned => {
            for concept in &mut deck.concepts {
                if let Concept::Some(role, _)
                | Concept::All(role, _)
                | Concept::Min(_, role, _)
                | Concept::Max(_, role, _) = concept
                {
                    *role &= !1;
                }
            }
        }
        _ => {}
    }
    deck
}

/// The same state with its elements in falling order.
fn mirrored(state: &State) -> State {
    let turn = |element: u32| state.size - 1 - element;
    let mut turned = state.clone();
    for elements in turned.classes.values_mut() {
        for element in elements.iter_mut() {
            *element = turn(*element);
        }
        elements.reverse();
    }
    for pairs in turned.roles.values_mut() {
        for pair in pairs.iter_mut() {
            *pair = pair.map(turn);
        }
        pairs.reverse();
    }
    for element in &mut turned.individuals {
        *element = turn(*element);
    }
    turned
}
