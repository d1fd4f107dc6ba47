//! A seed's deck, state and tables, and what the second evaluator and the original make of them.

use deck::random::Random;
use deck::{Axiom, Deck, Refusal};
use oracle::met::followed;
use oracle::{Limits, Listing, Run, assert_agreed, run};

use crate::call::Sizes;
use crate::draw::damage::damaged;
use crate::draw::decks::{self, Wish};
use crate::draw::many;
use crate::draw::states::{self, BUDGET};
use crate::outcome::Outcome;
use crate::second::judge::{WIDE, axioms_verdict, clauses_verdict, is_wide, refused};
use crate::second::read::{Rule, read};
use crate::second::state::State;
use crate::second::world::World;
use crate::second::{axioms, clauses};
use crate::verdict::{Test, Verdict};

pub struct Case {
    pub seed: u64,
    pub kind: String,
    pub deck: Vec<u8>,
    pub state: Vec<u8>,
    pub sizes: Sizes,
    /// What the calls must leave, in the order of [`Test::BOTH`].
    pub expected: [Outcome; 2],
    /// What is counted.
    pub met: Vec<String>,
    /// Where the state is read.
    pub known: Option<Known>,
    /// Decides the rest: where the tables lie, and their dirt.
    pub rng: Random,
}

/// A deck, its run and a state of it.
pub struct Known {
    pub deck: Deck,
    pub listing: Listing,
    pub state: State,
}

impl Outcome {
    /// A verdict on a run.
    #[must_use]
    pub fn told(listing: &Listing, verdict: &Verdict) -> Self {
        Self {
            reply: verdict.code(),
            words: [
                listing.clause_table(),
                listing.atom_table(),
                listing.deferral_table(),
                [&listing.numbers()[..], &verdict.words()].concat(),
                Vec::new(),
            ],
        }
    }
}

/// The case of a seed.
#[must_use]
pub fn case(seed: u64) -> Case {
    let mut rng = Random::new(seed);
    let drawn = decks::deck(&mut rng, seed);
    let read = deck::read(&drawn.bytes);
    let generous = read.as_ref().ok().map(|deck| run(deck, &Limits::LARGEST));
    let needed = generous.as_ref().map_or([0; 3], |run| run.most.rooms());
    let fresh = generous.as_ref().and_then(|run| run.answer.as_ref().ok());
    let fresh = fresh.map_or(0, |listing| listing.fresh);
    let names = read
        .as_ref()
        .map_or(0, |deck| deck.classes + deck.individuals);
    let ids = (names + fresh) as usize;
    let (sizes, wrong) = Sizes::draw(&mut rng, needed, ids, drawn.generous);
    let mut met = vec![drawn.kind.clone()];
    met.extend(wrong.map(str::to_owned));
    let ran = in_tables(&sizes, &read, generous.as_ref());
    if let Ok((deck, listing)) = &ran {
        assert_agreed(deck, listing);
        met.push(sizes.store_name(ids).into());
        met.extend(generous.iter().flat_map(|run| followed(deck, run)));
    }
    let state = state(&mut rng, &ran, read.as_ref().ok(), drawn.wish);
    let (expected, known) = judged(ran, &state, read.as_ref().ok(), &mut met);
    if let Some(known) = &known {
        note_room(known, &sizes, &mut met);
    }
    Case {
        seed,
        kind: drawn.kind,
        deck: drawn.bytes,
        state,
        sizes,
        expected,
        met,
        known,
        rng,
    }
}

/// A deck with its run, or why there is none.
type Ran = Result<(Deck, Listing), Refusal>;

/// The run in tables of these sizes, where `generous` is that in the largest.
fn in_tables(sizes: &Sizes, read: &Result<Deck, Refusal>, generous: Option<&Run>) -> Ran {
    let rooms = sizes.rooms().ok_or(Refusal { number: 1, line: 0 })?;
    let deck = read.as_ref().map_err(|refusal| *refusal)?;
    let generous = generous.expect("a deck that is read is run");
    let run = generous.in_rooms(deck, rooms).into_owned();
    run.answer.map(|listing| (deck.clone(), listing))
}

/// The state's text.
fn state(rng: &mut Random, ran: &Ran, read: Option<&Deck>, wish: Wish) -> Vec<u8> {
    let none = Deck::default();
    let deck = read.unwrap_or(&none);
    let most = match wish {
        _ if rng.chance(1, 40) => 8,
        Wish::Small | Wish::Bad => rng.between(1, 8),
        Wish::Large | Wish::Most | Wish::Full => *rng.pick(&[64, 64, 64, 63, 33, 32, 31, 20]),
    };
    let (state, fresh) = match ran {
        Ok((deck, _)) if wish == Wish::Full => (many::full(rng, deck), 0),
        Ok((deck, listing)) => {
            let budget = match wish {
                Wish::Most => 8 * BUDGET,
                _ => BUDGET,
            };
            let size = states::most_elements(deck, &listing.clauses, most, budget);
            (states::draw(rng, deck, listing, size), listing.fresh)
        }
        Err(_) => (states::random(rng, deck, 0, most.min(8)), 0),
    };
    if wish == Wish::Bad {
        loop {
            let text = damaged(rng, deck, fresh, &state);
            if is_bad(deck, &text) {
                return text;
            }
        }
    }
    if rng.chance(1, if ran.is_ok() { 6 } else { 2 }) {
        damaged(rng, deck, fresh, &state)
    } else {
        state.write()
    }
}

/// Whether a state is bad, whatever fresh classes a run takes.
fn is_bad(deck: &Deck, text: &[u8]) -> bool {
    let read = read(deck, 0, text);
    read.is_err_and(|bad| !matches!(bad.rule, Rule::Class | Rule::EveryIndividual))
}

/// What both calls must leave.
fn judged(
    ran: Ran,
    state: &[u8],
    deck: Option<&Deck>,
    met: &mut Vec<String>,
) -> ([Outcome; 2], Option<Known>) {
    let (deck, listing) = match ran {
        Ok(ran) => ran,
        Err(refusal) => {
            met.push(format!("refused {}", refusal.number));
            if deck.is_some_and(|deck| is_bad(deck, state)) {
                met.push(format!("{} before 13", refusal.number));
            }
            return (Outcome::refused(refusal), None);
        }
    };
    let state = match read(&deck, listing.fresh, state) {
        Ok(state) => state,
        Err(bad) => {
            met.push("refused 13".into());
            met.push(rule_name(bad.rule));
            if listing.clauses.iter().any(is_wide) {
                met.push(BEFORE_14.into());
            }
            return (Outcome::refused(refused(bad)), None);
        }
    };
    let known = Known {
        deck,
        listing,
        state,
    };
    (verdicts(&known, met), Some(known))
}

/// What both calls must leave where the state is read.
fn verdicts(known: &Known, met: &mut Vec<String>) -> [Outcome; 2] {
    let Known {
        deck,
        listing,
        state,
    } = known;
    let world = World::new(deck, state);
    let of_axioms = axioms_verdict(&world, deck);
    note_axioms(deck, &of_axioms, met);
    met.push(format!("{} elements", world.size));
    let told = Outcome::told(listing, &of_axioms);
    if listing.clauses.iter().any(is_wide) {
        met.push("refused 14".into());
        return [told, Outcome::from(WIDE)];
    }
    let of_clauses = clauses_verdict(&world, &listing.clauses);
    note_clauses(listing, &of_clauses, met);
    met.push(both_name(&of_axioms, &of_clauses).into());
    [told, Outcome::told(listing, &of_clauses)]
}

pub const BEFORE_14: &str = "13 before 14";
pub const BEYOND: &str = "a fresh class beyond the store, with elements";
pub const BEYOND_EMPTY: &str = "a fresh class beyond the store, without a line";

/// What is counted of a bad line.
#[must_use]
pub fn rule_name(rule: Rule) -> String {
    format!("13 by {rule:?}")
}

/// What both verdicts are together.
pub const TOGETHER: [&str; 4] = [
    "both hold",
    "axioms hold, a clause is broken",
    "an axiom is broken, clauses hold",
    "both are broken",
];

fn both_name(of_axioms: &Verdict, of_clauses: &Verdict) -> &'static str {
    let [axioms, clauses] = [of_axioms, of_clauses].map(|verdict| *verdict != Verdict::Holds);
    TOGETHER[2 * usize::from(axioms) + usize::from(clauses)]
}

fn note_axioms(deck: &Deck, verdict: &Verdict, met: &mut Vec<String>) {
    match verdict {
        Verdict::Holds => {
            let mut kinds: Vec<u32> = deck.axioms.iter().map(axioms::kind).collect();
            kinds.sort_unstable();
            kinds.dedup();
            met.extend(kinds.iter().map(|&kind| held_name(kind)));
            let chains = deck.axioms.iter().filter_map(chain_length);
            let mut lengths: Vec<usize> = chains.collect();
            lengths.sort_unstable();
            lengths.dedup();
            met.extend(lengths.iter().map(|&length| chain_name(length, "held")));
        }
        Verdict::Broken(line, _) => {
            let place = (line - deck.axiom_line(0)) as usize;
            let axiom = &deck.axioms[place];
            met.push(broken_name(axioms::kind(axiom)));
            met.extend(chain_length(axiom).map(|length| chain_name(length, "broken")));
        }
    }
}

#[must_use]
pub fn held_name(kind: u32) -> String {
    format!("{kind} held")
}

#[must_use]
pub fn broken_name(kind: u32) -> String {
    format!("{kind} broken")
}

#[must_use]
pub fn chain_name(length: usize, how: &str) -> String {
    format!("a chain of {length} {how}")
}

fn chain_length(axiom: &Axiom) -> Option<usize> {
    match axiom {
        Axiom::Chain(_, parts) => Some(parts.len()),
        _ => None,
    }
}

#[must_use]
pub fn clause_name(variables: usize) -> String {
    format!("a clause of {variables} variables broken")
}

fn note_clauses(listing: &Listing, verdict: &Verdict, met: &mut Vec<String>) {
    if let Verdict::Broken(number, _) = verdict {
        let clause = &listing.clauses[*number as usize];
        met.push(clause_name(clauses::variables(clause).len()));
        if clause.head.iter().any(|atom| atom[0] == 4) {
            met.push("a clause with an at-most atom broken".into());
        }
        if clause.head.iter().any(|atom| atom[0] == 5) {
            met.push("a clause with an at-least atom broken".into());
        }
    } else {
        let variables = listing.clauses.iter().map(clauses::variables);
        if let Some(most) = variables.map(|variables| variables.len()).max() {
            met.push(format!("clauses of up to {most} variables held"));
        }
    }
}

/// Fresh classes that have no room in the store.
fn note_room(known: &Known, sizes: &Sizes, met: &mut Vec<String>) {
    let room = u32::try_from(sizes.0[3] / 8).expect("a few megabytes");
    let first = known.deck.classes + known.deck.individuals;
    let end = first + known.listing.fresh;
    let mut beyond = first.max(room)..end;
    if beyond
        .clone()
        .any(|class| !known.state.classes.contains_key(&class))
    {
        met.push(BEYOND_EMPTY.into());
    }
    let has_elements = |class: u32| {
        let line = known.state.classes.get(&class);
        line.is_some_and(|elements| !elements.is_empty())
    };
    if beyond.any(has_elements) {
        met.push(BEYOND.into());
    }
}

/// What is expected of a test, by its place in [`Test::BOTH`].
impl Case {
    #[must_use]
    pub fn expected(&self, test: Test) -> &Outcome {
        &self.expected[usize::from(test == Test::Clauses)]
    }

    #[must_use]
    pub fn texts(&self) -> [&[u8]; 2] {
        [&self.deck, &self.state]
    }
}
