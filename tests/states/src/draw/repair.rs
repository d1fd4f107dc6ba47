//! States led towards the axioms: what breaks one is changed, and the change kept where no more axioms are broken than before.

use deck::random::Random;
use deck::{Axiom, Deck};

use super::names::Names;
use super::states::toggle;
use crate::second::judge::broken_axioms;
use crate::second::state::State;
use crate::second::world::World;

pub fn repair(rng: &mut Random, deck: &Deck, state: &mut State, steps: usize) {
    let mut broken = broken(deck, state);
    for _ in 0..steps {
        if broken.is_empty() {
            return;
        }
        let (place, shown) = rng.pick(&broken);
        let mut changed = state.clone();
        change(rng, deck, &deck.axioms[*place], shown, &mut changed);
        let after = self::broken(deck, &changed);
        if after.len() <= broken.len() || rng.chance(1, 30) {
            *state = changed;
            broken = after;
        }
    }
}

/// The places of the broken axioms, with what they show.
fn broken(deck: &Deck, state: &State) -> Vec<(usize, Vec<u32>)> {
    let world = World::new(deck, state);
    let broken = broken_axioms(&world, deck);
    broken.map(|(place, _, shown)| (place, shown)).collect()
}

/// Changes something that the axiom speaks of, mostly at elements that it shows.
fn change(rng: &mut Random, deck: &Deck, axiom: &Axiom, shown: &[u32], state: &mut State) {
    let names = Names::of_axiom(deck, axiom);
    let mut places: Vec<u32> = (0..state.size).collect();
    if !shown.is_empty() && rng.chance(3, 4) {
        places = shown.to_vec();
    }
    let [classes, roles, individuals] =
        [&names.classes, &names.roles, &names.individuals].map(|set| Vec::from_iter(set.clone()));
    let weights = [classes.len(), roles.len(), individuals.len()].map(|count| 2 * count.min(1));
    let weights = weights.map(|weight| u32::try_from(weight).expect("at most 2"));
    if weights == [0; 3] {
        return;
    }
    match rng.weighted(&weights) {
        0 => {
            let elements = state.classes.entry(*rng.pick(&classes)).or_default();
            match rng.below(12) {
                0 => elements.clear(),
                1 => *elements = (0..state.size).collect(),
                _ => toggle(elements, *rng.pick(&places)),
            }
        }
        1 => {
            let pairs = state.roles.entry(*rng.pick(&roles)).or_default();
            change_pairs(rng, state.size, &places, pairs);
        }
        _ => {
            let individual = *rng.pick(&individuals) as usize;
            state.individuals[individual] = rng.below(state.size);
        }
    }
}

/// All pairs go, or the loops do, or all loops alone are left; or one pair comes or goes.
fn change_pairs(rng: &mut Random, size: u32, places: &[u32], pairs: &mut Vec<[u32; 2]>) {
    match rng.below(12) {
        0 => pairs.clear(),
        1 => pairs.retain(|pair| pair[0] != pair[1]),
        2 => *pairs = (0..size).map(|x| [x, x]).collect(),
        _ => {
            let other = rng.below(size);
            let place = *rng.pick(places);
            let pair = if rng.chance(1, 2) {
                [place, other]
            } else {
                [other, place]
            };
            toggle(pairs, pair);
        }
    }
}
