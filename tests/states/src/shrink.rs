//! A pair with a difference, made smaller as long as there is one.

use deck::random::Random;
use deck::{Deck, Refusal};
use oracle::{Answer, Limits, answer_min_zero};

use crate::call::{Call, Library, Sizes};
use crate::case::{Case, Known};
use crate::outcome::Outcome;
use crate::second::judge::judge;
use crate::second::state::State;
use crate::verdict::Test;

/// The smallest deck and state found at which the library still differs, with sizes that are enough; none where the pair is
/// refused, or where such sizes make no difference.
pub fn shrunk(call: &mut Call, library: &Library, case: &Case) -> Option<(Deck, State, String)> {
    let Known { deck, state, .. } = case.known.as_ref()?;
    let mut told = difference(call, library, case, deck, state)?;
    let mut pair = (deck.clone(), state.clone());
    // Each change that keeps a difference is kept, and all are tried anew.
    'again: loop {
        for (deck, state) in smaller(&pair.0, &pair.1) {
            if let Some(difference) = difference(call, library, case, &deck, &state) {
                told = difference;
                pair = (deck, state);
                continue 'again;
            }
        }
        return Some((pair.0, pair.1, told));
    }
}

/// How the library differs on a deck and a state that both are read.
fn difference(
    call: &mut Call,
    library: &Library,
    case: &Case,
    deck: &Deck,
    state: &State,
) -> Option<String> {
    let texts = [deck::write(deck), state.write()];
    let texts = [&texts[0][..], &texts[1]];
    let Answer::Accepted(listing) = answer_min_zero(texts[0], &Limits::LARGEST) else {
        return None;
    };
    let sizes = Sizes::of_rooms(Limits::LARGEST.rooms(), case.sizes.0[3].max(lent::STORE));
    let mut rng = Random::new(case.seed);
    Test::BOTH.into_iter().find_map(|test| {
        let verdict = judge(test, deck, &listing, texts[1]);
        if matches!(verdict, Err(Refusal { number: 13, .. })) {
            return None;
        }
        let told = |verdict| Outcome::told(&listing, &verdict);
        let expected = verdict.map_or_else(Outcome::from, told);
        let reply = call.make(&mut rng, library.entry(test), texts, &sizes);
        let difference = call.difference(reply, texts, &expected)?;
        Some(format!("{}: {difference}", test.name()))
    })
}

/// What is one step smaller.
fn smaller(deck: &Deck, state: &State) -> Vec<(Deck, State)> {
    let mut all = Vec::new();
    for place in 0..deck.axioms.len() {
        let mut less = deck.clone();
        less.axioms.remove(place);
        all.push((less, state.clone()));
    }
    if !deck.concepts.is_empty() {
        let mut less = deck.clone();
        less.concepts.pop();
        all.push((less, state.clone()));
    }
    let with = |change: &dyn Fn(&mut State)| {
        let mut less = state.clone();
        change(&mut less);
        (deck.clone(), less)
    };
    if state.size > 1 {
        all.extend((0..state.size).map(|element| with(&|state| remove(state, element))));
    }
    for (&class, elements) in &state.classes {
        all.push(with(&|state| drop(state.classes.remove(&class))));
        for place in 0..elements.len() {
            all.push(with(&|state| {
                let elements = state.classes.get_mut(&class);
                elements.expect("its line").remove(place);
            }));
        }
    }
    for (&role, pairs) in &state.roles {
        all.push(with(&|state| drop(state.roles.remove(&role))));
        for place in 0..pairs.len() {
            all.push(with(&|state| {
                state.roles.get_mut(&role).expect("its line").remove(place);
            }));
        }
    }
    all
}

/// One element less: what had it loses it, those above it move down, and an individual at it goes to 0.
fn remove(state: &mut State, gone: u32) {
    state.size -= 1;
    let moved = |element: u32| element - u32::from(element > gone);
    for elements in state.classes.values_mut() {
        elements.retain(|&element| element != gone);
        for element in elements.iter_mut() {
            *element = moved(*element);
        }
    }
    for pairs in state.roles.values_mut() {
        pairs.retain(|pair| !pair.contains(&gone));
        for pair in pairs.iter_mut() {
            *pair = pair.map(moved);
        }
    }
    for element in &mut state.individuals {
        *element = if *element == gone { 0 } else { moved(*element) };
    }
}

#[cfg(test)]
mod tests {
    use super::shrunk;
    use crate::call::Call;
    use crate::case::case;
    use crate::mock::{Fault, erring};

    /// What skips an axiom needs one line, and a pair or an element.
    #[test]
    fn little_is_left() {
        let library = erring(Fault::ReadOnlySkipped);
        let mut call = Call::default();
        let mut found = 0;
        for seed in 100..400 {
            let case = case(seed);
            if let Some((deck, state, told)) = shrunk(&mut call, &library, &case) {
                assert!(told.starts_with("axioms: "), "{told}");
                assert_eq!(deck.axioms.len(), 1);
                assert!(state.size <= 2, "{deck:?} {state:?}");
                found += 1;
            }
        }
        assert!(found > 5, "{found}");
    }
}
