//! Random states, and states that are led towards what the deck asks for.

use std::collections::BTreeSet;
use std::ops::Range;

use deck::random::Random;
use deck::{Axiom, Deck};
use oracle::{Clause, Listing};

use super::fresh;
use super::names::Names;
use super::repair::repair;
use crate::second::judge::is_wide;
use crate::second::state::State;
use crate::second::world::World;
use crate::second::{axioms, clauses};

/// Assignments that the second evaluator may go through for one state.
pub const BUDGET: u64 = 150_000;

/// The most elements, up to so many, that a deck and its clauses can be tested with by going through so many assignments.
pub fn most_elements(deck: &Deck, all: &[Clause], most: u32, budget: u64) -> u32 {
    let cost = |size: u32| {
        let size = u64::from(size);
        let of_clause = |clause: &Clause| {
            let variables = u32::try_from(clauses::variables(clause).len()).expect("few");
            size.saturating_pow(variables.min(5)) * (1 + clause.body.len() as u64)
        };
        let of_axiom = |axiom| {
            let variables = axioms::variables(axiom);
            let power = u32::try_from(variables.min(3)).expect("up to 3");
            size.saturating_pow(power) * (variables as u64).max(3) / 3
        };
        let of_axioms: u64 = deck.axioms.iter().map(of_axiom).sum();
        if all.iter().any(is_wide) {
            // None is tested.
            return of_axioms;
        }
        of_axioms + all.iter().map(of_clause).sum::<u64>()
    };
    let mut size = most;
    while size > 1 && cost(size) > budget {
        size -= 1;
    }
    size
}

/// Which lines a state may have: of a deck with many names mostly those that its axioms speak of.
fn ids(rng: &mut Random, named: &BTreeSet<u32>, count: u32) -> BTreeSet<u32> {
    if count <= 40 || rng.chance(1, 8) {
        return (0..count).collect();
    }
    let mut ids = named.clone();
    for _ in 0..10 {
        ids.insert(rng.below(count));
    }
    ids
}

/// Fresh ids for lines: of many the first and last ones, and some others.
fn fresh_ids(rng: &mut Random, fresh: Range<u32>) -> BTreeSet<u32> {
    if fresh.len() <= 60 {
        return fresh.collect();
    }
    let ends = fresh.clone().take(5).chain(fresh.clone().rev().take(5));
    let mut ids: BTreeSet<u32> = ends.collect();
    for _ in 0..40 {
        ids.insert(rng.between(fresh.start, fresh.end - 1));
    }
    ids
}

/// A state of a deck: lines at random, its fresh ids among them.
pub fn random(rng: &mut Random, deck: &Deck, fresh: u32, size: u32) -> State {
    let names = Names::of_deck(deck);
    let dense = *rng.pick(&[0, 1, 2, 3, 5, 8, 9, 10]);
    let lines = *rng.pick(&[3, 7, 9, 10]);
    let mut state = State {
        size,
        ..State::default()
    };
    let first_fresh = deck.classes + deck.individuals;
    let mut classes = ids(rng, &names.classes, deck.classes);
    classes.extend(fresh_ids(rng, first_fresh..first_fresh + fresh));
    for class in classes {
        if rng.chance(lines, 10) {
            let elements = (0..size).filter(|_| rng.chance(dense, 10)).collect();
            state.classes.insert(class, elements);
        }
    }
    // A role has more pairs than a class elements.
    let dense = *rng.pick(&[dense, 1, 2, 3]);
    for role in ids(rng, &names.roles, deck.roles) {
        if rng.chance(lines, 10) {
            let pairs = (0..size).flat_map(|x| (0..size).map(move |y| [x, y]));
            let pairs = pairs.filter(|_| rng.chance(dense, 10)).collect();
            state.roles.insert(role, pairs);
        }
    }
    state.individuals = (0..deck.individuals).map(|_| rng.below(size)).collect();
    state
}

/// How far a state is led.
#[derive(Clone, Copy, Debug, PartialEq, Eq)]
pub enum Mood {
    Random,
    /// Towards the axioms.
    Axioms,
    /// And then its fresh classes towards the clauses.
    Both,
}

/// So many fresh classes are not chosen one by one.
pub const MANY: u32 = 2_000;

/// A state in a mood.
pub fn draw(rng: &mut Random, deck: &Deck, listing: &Listing, size: u32) -> State {
    let mood = [Mood::Random, Mood::Axioms, Mood::Both][rng.weighted(&[4, 2, 6])];
    let mut state = random(rng, deck, listing.fresh, size);
    // Led towards a long chain, a state has none.
    if has_long_chain(deck) && rng.chance(2, 3) {
        return state;
    }
    if mood == Mood::Random {
        return state;
    }
    let is_large = deck.axioms.len() > 40 || deck.concepts.len() > 150 || deck.individuals > 100;
    let steps = match size {
        _ if is_large => 6,
        0..=8 => 60,
        _ => 10,
    };
    repair(rng, deck, &mut state, steps);
    let is_tested = !listing.clauses.iter().any(is_wide);
    if mood == Mood::Both && (1..MANY).contains(&listing.fresh) && is_tested {
        let world = World::new(deck, &state);
        let first = deck.classes + deck.individuals;
        let (_, sets) = fresh::choose(rng, &world, &listing.clauses, first..first + listing.fresh);
        state.classes.extend(sets);
    }
    if rng.chance(1, 6) {
        spoil(rng, deck, &mut state);
    }
    state
}

fn has_long_chain(deck: &Deck) -> bool {
    let mut axioms = deck.axioms.iter();
    axioms.any(|axiom| matches!(axiom, Axiom::Chain(_, parts) if parts.len() > 5))
}

/// One class or role gets other elements, so that a good state is broken at one place.
fn spoil(rng: &mut Random, deck: &Deck, state: &mut State) {
    let size = state.size;
    if rng.chance(1, 2) && deck.roles > 0 {
        let role = rng.below(deck.roles);
        toggle(
            state.roles.entry(role).or_default(),
            [rng.below(size), rng.below(size)],
        );
    } else if let Some(mut class) = state.classes.first_entry() {
        toggle(class.get_mut(), rng.below(size));
    }
}

/// Puts an item into a sorted list, or takes it out.
pub fn toggle<T: Ord>(list: &mut Vec<T>, item: T) {
    match list.binary_search(&item) {
        Ok(place) => drop(list.remove(place)),
        Err(place) => list.insert(place, item),
    }
}
