//! Decks and states of many elements, lines or bytes.

use deck::random::Random;
use deck::{Axiom, Deck};

use super::shapes::Make;
use crate::second::state::State;

/// Many roles, few axioms over them.
pub fn many_roles(rng: &mut Random) -> Deck {
    let roles = rng.between(20, 60);
    let mut make = Make::new(rng, [1, 1, roles]);
    for _ in 0..make.rng.between(1, 3) {
        let kind = *make.rng.pick(&[29, 30, 31, 32, 33, 34, 35]);
        let axiom = make.axiom_of(kind);
        make.axiom(axiom);
    }
    make.deck
}

/// One inclusion along roles: a clause of three variables, or a chain of two.
pub fn few_variables(rng: &mut Random) -> Deck {
    let mut make = Make::new(rng, [2, 0, 2]);
    let axiom = match make.rng.below(3) {
        0 => Axiom::Transitive(make.role()),
        1 => Axiom::Chain(make.role(), vec![make.role(), make.role()]),
        _ => Axiom::Asymmetric(make.role()),
    };
    make.axiom(axiom);
    make.deck
}

/// Roles with nearly every pair.
pub fn full(rng: &mut Random, deck: &Deck) -> State {
    let size = rng.between(60, 64);
    let mut state = State {
        size,
        ..State::default()
    };
    for role in 0..deck.roles {
        let missing = [rng.below(size), rng.below(size)];
        let is_whole = rng.chance(1, 2);
        let pairs = (0..size).flat_map(|x| (0..size).map(move |y| [x, y]));
        let pairs = pairs.filter(|&pair| is_whole || pair != missing);
        state.roles.insert(role, pairs.collect());
    }
    state.individuals = (0..deck.individuals).map(|_| rng.below(size)).collect();
    state
}
