//! A seed's deck and tables, and what the original and document 01 make of them.

use deck::limits::DECK_BYTES;
use deck::random::Random;
use deck::{Deck, Refusal};
use oracle::met::{ends, followed, is_wide, late_passes, settled};
use oracle::{Limits, Listing, Pass, Run, assert_agreed, has_min_zero, run, run_with_stages};
use samples::sample::{self, Stored};

use crate::call::Sizes;
use crate::decks;
use crate::dwelling::{Dwelling, dwelling};
use crate::following::{self, Following, following};
use crate::outcome::Outcome;
use crate::settling::{self, Settling, settling};
use crate::stored;

/// Which decks the seeds have.
#[derive(Clone, Copy, Debug, PartialEq, Eq)]
pub enum Decks {
    /// All; the others have a share in them.
    Any,
    /// Those that dwell on the later passes.
    Dwelling,
    /// Those with option 4 in which at-most fillers are put below their names.
    Limits,
    /// Those with option 8 in which a role is followed through two mappings or more.
    Following,
}

pub struct Case {
    pub seed: u64,
    pub kind: String,
    pub deck: Vec<u8>,
    pub sizes: Sizes,
    /// What a call must leave.
    pub expected: Outcome,
    /// What is counted.
    pub met: Vec<String>,
    /// Which decks it is counted with.
    pub part: Decks,
    /// Decides the rest: where the tables lie, and their dirt.
    pub rng: Random,
}

impl From<&Listing> for Outcome {
    fn from(listing: &Listing) -> Self {
        Self {
            reply: 0,
            words: [
                listing.clause_table(),
                listing.atom_table(),
                listing.deferral_table(),
                listing.numbers().to_vec(),
                Vec::new(),
            ],
        }
    }
}

/// The case of a seed.
#[must_use]
pub fn case(seed: u64, decks: Decks) -> Case {
    let rng = Random::new(seed);
    let part = match decks {
        Decks::Any => decks::part(seed),
        part => part,
    };
    match part {
        Decks::Any => of_any(rng, seed),
        Decks::Dwelling => of_dwelling(rng, seed),
        Decks::Limits => of_settling(rng, seed),
        Decks::Following => of_following(rng, seed),
    }
}

fn of_any(mut rng: Random, seed: u64) -> Case {
    let drawn = decks::deck(&mut rng, seed);
    let read = deck::read(&drawn.bytes);
    let run = match drawn.part {
        Decks::Dwelling => run_with_stages,
        _ => run,
    };
    let generous = read.as_ref().ok().map(|deck| run(deck, &Limits::LARGEST));
    let needed = generous.as_ref().map_or([0; 3], |run| run.most.rooms());
    let (sizes, wrong) = Sizes::draw(&mut rng, needed, drawn.generous);
    let mut met = vec![drawn.kind.clone()];
    if drawn.bytes.len() > DECK_BYTES {
        met.push(LONG.into());
    }
    let expected = match (sizes.rooms(), read, generous) {
        (None, _, _) => {
            met.push("refused 1".into());
            met.extend(wrong.map(str::to_owned));
            Outcome::from(Refusal { number: 1, line: 0 })
        }
        (Some(rooms), Ok(deck), Some(generous)) => in_rooms(&deck, &generous, rooms, &mut met),
        (Some(_), read, _) => {
            let refusal = read.expect_err("a deck that is read is run");
            met.push(format!("refused {}", refusal.number));
            Outcome::from(refusal)
        }
    };
    Case {
        seed,
        kind: drawn.kind,
        deck: drawn.bytes,
        sizes,
        expected,
        met,
        part: drawn.part,
        rng,
    }
}

fn of_dwelling(mut rng: Random, seed: u64) -> Case {
    let Dwelling {
        kind,
        deck,
        generous,
        rooms,
    } = dwelling(&mut rng, seed);
    of_rooms(rng, seed, kind, Decks::Dwelling, &deck, &generous, rooms)
}

fn of_settling(mut rng: Random, seed: u64) -> Case {
    let Settling {
        kind,
        deck,
        generous,
        rooms,
    } = settling(&mut rng, seed);
    of_rooms(rng, seed, kind, Decks::Limits, &deck, &generous, rooms)
}

fn of_following(mut rng: Random, seed: u64) -> Case {
    let Following {
        kind,
        deck,
        generous,
        rooms,
        is_other,
    } = following(&mut rng);
    let mut case = of_rooms(rng, seed, kind, Decks::Following, &deck, &generous, rooms);
    let is_accepted = case.expected.reply == 0;
    note(&[(OTHER, is_accepted && is_other)], &mut case.met);
    case
}

/// The case of a deck in tables of so many records.
fn of_rooms(
    mut rng: Random,
    seed: u64,
    kind: String,
    part: Decks,
    deck: &Deck,
    generous: &Run,
    rooms: [usize; 3],
) -> Case {
    let mut sizes = Sizes::of_rooms(rooms);
    sizes.lengthen_scratch(&mut rng);
    let mut met = vec![kind.clone()];
    let expected = in_rooms(deck, generous, rooms, &mut met);
    Case {
        seed,
        kind,
        deck: deck::write(deck),
        sizes,
        expected,
        met,
        part,
        rng,
    }
}

/// The case of a stored deck, by its name: the seed, and the kind.
#[must_use]
pub fn stored_case(name: &str) -> Option<Case> {
    let (seed, kind) = name.split_once(' ')?;
    let decks = if kind.starts_with(settling::KIND) {
        Decks::Limits
    } else if kind.starts_with(following::KIND) {
        Decks::Following
    } else {
        Decks::Dwelling
    };
    Some(case(seed.parse().ok()?, decks))
}

/// A deck with the original's answer, to be stored.
///
/// # Panics
/// If its tables have a wrong size.
#[must_use]
pub fn sampled(case: &Case) -> sample::Case {
    let rooms = case.sizes.rooms().expect("good sizes");
    sample::Case {
        name: format!("{} {}", case.seed, case.kind),
        deck: stored::input(rooms, &case.deck),
        answer: Stored::of(&case.expected.write()),
    }
}

/// Of decks with option 8 alone.
pub const OTHER: &str = "another answer than with one step";
/// Of dwelling decks alone, and of those with option 8.
pub const WIDE: &str = "wide bodies";
pub const LONG: &str = "a deck of more than 65,536 bytes";
pub const MIN_ZERO: &str = "Min 0 lines";
pub const LAST_VISIT: &str = "one million visits";
pub const NO_TABLES: &str = "accepted with empty tables";
pub const IN_AN_AXIOM: &str = "refused 12 in an axiom";
pub const AFTER_THE_AXIOMS: &str = "refused 12 after the last axiom";
pub const BY_CONCEPTS: &str = "refused 11 by the concepts";
pub const BY_MEMBERS: &str = "refused 11 by the list members";

/// The original's answer in tables of so many records.
fn in_rooms(deck: &Deck, generous: &Run, rooms: [usize; 3], met: &mut Vec<String>) -> Outcome {
    let run = generous.in_rooms(deck, rooms);
    note(&[(WIDE, has_wide_bodies(generous))], met);
    let told = [ends(generous, &run, rooms), settled(generous, &run, rooms)].concat();
    met.extend(told.into_iter().map(str::to_owned));
    match &run.answer {
        Ok(listing) => {
            assert_agreed(deck, listing);
            note_accepted(deck, &run, listing, rooms, met);
            Outcome::from(listing)
        }
        Err(refusal) => {
            note_refused(&run, *refusal, met);
            Outcome::from(*refusal)
        }
    }
}

/// Whether there were wide bodies after the last axiom, in a run with its stages.
fn has_wide_bodies(generous: &Run) -> bool {
    let passed = generous.stages.passes.get(&Pass::Axioms);
    passed.is_some_and(|passed| passed.clauses.iter().any(is_wide))
}

fn note_accepted(
    deck: &Deck,
    run: &Run,
    listing: &Listing,
    rooms: [usize; 3],
    met: &mut Vec<String>,
) {
    met.push("accepted".into());
    met.push(format!("options {}", deck.options));
    met.extend(followed(deck, run));
    for kind in 1..=9 {
        if listing.deferrals.iter().any(|deferral| deferral.1 == kind) {
            met.push(format!("deferral {kind}"));
        }
    }
    met.extend(late_passes(run).into_iter().map(str::to_owned));
    let others = [
        (MIN_ZERO, has_min_zero(deck)),
        (LAST_VISIT, listing.visits == 1_000_000),
        (NO_TABLES, rooms == [0; 3]),
    ];
    note(&others, met);
}

fn note_refused(run: &Run, refusal: Refusal, met: &mut Vec<String>) {
    let Refusal { number, line } = refusal;
    met.push(format!("refused {number}"));
    let by_concepts = run.most.pool == Limits::LARGEST.pool;
    let others = [
        (IN_AN_AXIOM, number == 12 && line > 0),
        (AFTER_THE_AXIOMS, number == 12 && line == 0),
        (BY_CONCEPTS, number == 11 && by_concepts),
        (BY_MEMBERS, number == 11 && !by_concepts),
    ];
    note(&others, met);
}

fn note(all: &[(&str, bool)], met: &mut Vec<String>) {
    let told = all.iter().filter(|(_, is_met)| *is_met);
    met.extend(told.map(|(what, _)| (*what).to_owned()));
}
