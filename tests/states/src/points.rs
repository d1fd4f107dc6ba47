//! What a user sees who tests the axioms and then the clauses of one deck with one state: the meaning theorem, of the replies
//! alone, and of further calls with other lines for the fresh classes.

use deck::Axiom;
use deck::random::Random;
use oracle::has_equal_names;

use crate::call::{Call, Library};
use crate::case::{Case, Known};
use crate::draw::fresh::choose;
use crate::draw::states::{self, MANY};
use crate::outcome::Outcome;
use crate::second::axioms;
use crate::second::judge::{broken_axioms, clauses_verdict, is_wide};
use crate::second::state::State;
use crate::second::world::World;
use crate::verdict::{Test, Verdict};

/// Where something is to be seen.
pub const POINTS: [&str; 9] = [
    "point 1: both tests are refused alike",
    "point 2: axioms hold, and fresh classes can be chosen",
    "point 3: axioms hold, and clauses without a fresh class",
    "point 4: clauses hold, and an axiom broken is of kinds 32 to 36",
    "point 4: clauses hold, and an axiom 32 is broken",
    "point 5: an axiom of 21 to 31 is broken, and clauses with any fresh classes",
    "point 5: an axiom of 21 to 31 is broken, and clauses with fresh classes that were tried",
    "point 4: with option 4 clauses hold, and axioms, though an at-most names a fresh class",
    "point 5: with option 4 the two are broken, though an at-most names a fresh class",
];
/// Not found is not that there are none.
pub const NOT_FOUND: &str = "point 2: no choice was found";

const REFUSED_14: u64 = 14 << 32;

/// How the replies to both tests, or to further calls, are not as the theorem has it; and which points were met.
pub fn difference(
    call: &mut Call,
    library: &Library,
    case: &mut Case,
    [axioms, clauses]: [u64; 2],
    met: &mut Vec<&'static str>,
) -> Option<String> {
    if axioms > 1 || clauses > 1 && clauses != REFUSED_14 {
        met.push(POINTS[0]);
        return (axioms != clauses).then(|| "point 1: the tests are refused apart".into());
    }
    let known = case.known.take()?;
    if axioms == 0 && clauses == 0 && needs_option_4(&known) {
        met.push(POINTS[7]);
    }
    let told = if axioms == 0 {
        let of_none = no_choice(&known, clauses, met);
        of_none.or_else(|| chosen(call, library, case, &known, met))
    } else {
        let of_clauses = (clauses == 0).then(|| held_clauses(&known, met)).flatten();
        of_clauses.or_else(|| any_choice(call, library, case, &known, clauses, met))
    };
    case.known = Some(known);
    told
}

/// Where axioms hold and there is no fresh class, clauses hold.
fn no_choice(known: &Known, clauses: u64, met: &mut Vec<&'static str>) -> Option<String> {
    if known.listing.fresh > 0 {
        return None;
    }
    if clauses == 0 && !known.listing.clauses.is_empty() {
        met.push(POINTS[2]);
    }
    (clauses == 1).then(|| "point 3: axioms hold, no class is fresh, and a clause is broken".into())
}

/// Where axioms hold, a choice of the fresh classes lets clauses hold.
fn chosen(
    call: &mut Call,
    library: &Library,
    case: &mut Case,
    known: &Known,
    met: &mut Vec<&'static str>,
) -> Option<String> {
    let Known { listing, .. } = known;
    let is_chosen = (1..MANY).contains(&listing.fresh);
    if !is_chosen || listing.clauses.iter().any(is_wide) {
        return None;
    }
    let world = World::new(&known.deck, &known.state);
    let fresh = known.fresh();
    let (found, sets) = choose(&mut case.rng, &world, &listing.clauses, fresh);
    if !found {
        met.push(NOT_FOUND);
        return none_at_all(known).then(|| {
            "point 2: axioms hold, and no choice of fresh classes lets clauses hold".into()
        });
    }
    met.push(POINTS[1]);
    let mut state = known.state.clone();
    state.classes.extend(sets);
    again(call, library, case, known, &state, &Verdict::Holds)
}

impl Known {
    /// The ids of the fresh classes.
    #[must_use]
    pub fn fresh(&self) -> std::ops::Range<u32> {
        let first = self.deck.classes + self.deck.individuals;
        first..first + self.listing.fresh
    }
}

/// Choices that are gone through at most.
const CHOICES: u32 = 10;

/// Whether no choice at all of the fresh classes lets clauses hold; where there are too many, it is not known.
fn none_at_all(known: &Known) -> bool {
    let size = known.state.size;
    let bits = known.listing.fresh.saturating_mul(size);
    if bits > CHOICES {
        return false;
    }
    let mut world = World::new(&known.deck, &known.state);
    !(0..1u32 << bits).any(|choice| {
        for (place, class) in (0..).zip(known.fresh()) {
            let is_chosen = |element: &u32| choice >> (place * size + element) & 1 == 1;
            let elements = (0..size).filter(is_chosen).collect();
            world.classes.insert(class, elements);
        }
        clauses_verdict(&world, &known.listing.clauses) == Verdict::Holds
    })
}

/// The clause test once more, with another state, of which this must be said.
fn again(
    call: &mut Call,
    library: &Library,
    case: &mut Case,
    known: &Known,
    state: &State,
    verdict: &Verdict,
) -> Option<String> {
    let text = state.write();
    let texts = [&case.deck[..], &text];
    let expected = Outcome::told(&known.listing, verdict);
    let reply = call.make(&mut case.rng, library.clauses, texts, &case.sizes);
    let difference = call.difference(reply, texts, &expected)?;
    case.state = text;
    case.expected[1] = expected;
    Some(format!("with other fresh classes, clauses: {difference}"))
}

/// The second half's provisos: nothing deferred, no class marked, and without option 4 no at-most atom over a fresh class.
fn has_provisos(known: &Known) -> bool {
    let Known { deck, listing, .. } = known;
    listing.deferrals.is_empty()
        && deck.keys.is_empty()
        && (has_equal_names(deck) || !counts_a_fresh_class(known))
}

/// Whether the provisos are met by option 4 alone.
fn needs_option_4(known: &Known) -> bool {
    has_provisos(known) && counts_a_fresh_class(known)
}

/// Whether an at-most atom names a fresh class.
fn counts_a_fresh_class(known: &Known) -> bool {
    let fresh = known.fresh();
    let clauses = known.listing.clauses.iter();
    let mut atoms = clauses.flat_map(|clause| clause.body.iter().chain(&clause.head));
    atoms.any(|atom| atom[0] == 4 && atom[2] > 0 && fresh.contains(&(atom[2] - 1)))
}

fn is_clausified(axiom: &Axiom) -> bool {
    axioms::kind(axiom) <= 31
}

/// What is broken: an axiom of kinds 21 to 31, and one of kind 32.
fn broken_kinds(known: &Known) -> [bool; 2] {
    let world = World::new(&known.deck, &known.state);
    let mut broken = [false; 2];
    for (_, axiom, _) in broken_axioms(&world, &known.deck) {
        broken[0] |= is_clausified(axiom);
        broken[1] |= axioms::kind(axiom) == 32;
    }
    broken
}

/// Where clauses hold and axioms do not.
fn held_clauses(known: &Known, met: &mut Vec<&'static str>) -> Option<String> {
    if !has_provisos(known) {
        return None;
    }
    match broken_kinds(known) {
        [_, true] => met.push(POINTS[4]),
        [false, false] => met.push(POINTS[3]),
        [true, false] => {
            let told = "point 4: clauses hold, and an axiom of kinds 21 to 31 alone is broken";
            return Some(told.into());
        }
    }
    None
}

/// Where an axiom of kinds 21 to 31 is broken, no choice of the fresh classes lets clauses hold: others than the state's, which
/// point 4 speaks of.
fn any_choice(
    call: &mut Call,
    library: &Library,
    case: &mut Case,
    known: &Known,
    clauses: u64,
    met: &mut Vec<&'static str>,
) -> Option<String> {
    let is_broken = clauses == 1 && has_provisos(known);
    if !is_broken || broken_kinds(known) != [true, false] {
        return None;
    }
    met.push(POINTS[5]);
    if needs_option_4(known) {
        met.push(POINTS[8]);
    }
    if !(1..MANY).contains(&known.listing.fresh) {
        return None;
    }
    met.push(POINTS[6]);
    other_choices(&mut case.rng, known)
        .iter()
        .find_map(|state| {
            let verdict = clauses_verdict(&World::new(&known.deck, state), &known.listing.clauses);
            if verdict == Verdict::Holds {
                return Some("point 5: a choice of the fresh classes lets clauses hold".into());
            }
            again(call, library, case, known, state, &verdict)
        })
}

/// The state with fresh classes that are led towards the clauses, and with random ones.
fn other_choices(rng: &mut Random, known: &Known) -> [State; 2] {
    let Known {
        deck,
        listing,
        state,
    } = known;
    let world = World::new(deck, state);
    let (_, sets) = choose(rng, &world, &listing.clauses, known.fresh());
    let mut led = state.clone();
    led.classes.extend(sets);
    let others = states::random(rng, deck, listing.fresh, state.size);
    let of_others = others.classes.into_iter();
    let of_others = of_others.filter(|(class, _)| known.fresh().contains(class));
    let mut random = state.clone();
    random
        .classes
        .retain(|class, _| !known.fresh().contains(class));
    random.classes.extend(of_others);
    [led, random]
}

/// Both replies, and how the calls are not as expected.
pub fn both(call: &mut Call, library: &Library, case: &mut Case) -> Result<[u64; 2], String> {
    let mut replies = [0; 2];
    for (test, reply) in Test::BOTH.into_iter().zip(&mut replies) {
        let texts = [&case.deck[..], &case.state];
        *reply = call.make(&mut case.rng, library.entry(test), texts, &case.sizes);
        let difference = call.difference(*reply, texts, case.expected(test));
        if let Some(difference) = difference {
            return Err(format!("{}: {difference}", test.name()));
        }
    }
    Ok(replies)
}

#[cfg(test)]
mod tests {
    use std::collections::BTreeSet;

    use super::{both, difference};
    use crate::call::Call;
    use crate::case::{Case, case};
    use crate::mock::{Fault, erring};

    /// What is told of some pairs where the replies, or what is known, are made others.
    fn told(change: fn(&mut Case, &mut [u64; 2])) -> BTreeSet<String> {
        let library = erring(Fault::None);
        let mut call = Call::default();
        let told = (100..500).filter_map(|seed| {
            let mut case = case(seed);
            let mut replies = both(&mut call, &library, &mut case).expect("no difference");
            change(&mut case, &mut replies);
            difference(&mut call, &library, &mut case, replies, &mut Vec::new())
        });
        told.collect()
    }

    fn has(told: &BTreeSet<String>, words: &str) -> bool {
        told.iter().any(|told| told.starts_with(words))
    }

    #[test]
    fn nothing_is_told_of_what_is_right() {
        assert_eq!(told(|_, _| {}), BTreeSet::new());
    }

    #[test]
    fn what_is_wrong_is_told() {
        let apart = told(|_, replies| replies[1] += u64::from(replies[0] > 1));
        assert!(has(&apart, "point 1: the tests are refused apart"));
        // Verdicts that are not the state's.
        let held = told(|case, replies| {
            if case.known.is_some() {
                *replies = [0, 1];
            }
        });
        assert!(has(&held, "point 2: axioms hold, and no choice"));
        assert!(has(&held, "point 3: axioms hold, no class is fresh"));
        let broken = told(|case, replies| {
            if case.known.is_some() {
                *replies = [1, 0];
            }
        });
        assert!(has(&broken, "point 4: clauses hold, and an axiom"));
        // Clauses that are lost.
        let lost = told(|case, _| {
            if let Some(known) = &mut case.known {
                known.listing.clauses.clear();
            }
        });
        assert!(has(&lost, "point 5: a choice of the fresh classes"));
    }
}
