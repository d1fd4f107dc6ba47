//! What the runs of a comparison met, and how often.

use std::collections::{BTreeMap, HashSet};

use deck::Deck;
use rustdl::clause::{MAX_BODY_VARS, distinct_vars};

use crate::following::{KINDS, kinds_in_two_steps};
use crate::{Clause, Limits, Listing, Pass, Run, Settled, follows_roles};

/// Deferral kinds that occur. Kinds 6 and 8 would need a negation of what is no class, individual or Self, and a normal form
/// has none; kind 7 would need a concept without a name, and `atomic_name_of` always gives one.
pub const DEFERRAL_KINDS: [u32; 6] = [1, 2, 3, 4, 5, 9];

/// What [`late_passes`] tells.
pub const LATE_PASSES: [&str; 6] = [
    "unfolding",
    "unfolding that ends at the cap",
    "unfolding past the cap",
    "counted loops",
    "named branches",
    "a memo hit",
];

/// Clauses that unfolding may derive.
const CAP: usize = 4_096;

/// What the later passes of an accepted run did.
#[must_use]
pub fn late_passes(run: &Run) -> Vec<&'static str> {
    let Ok(listing) = &run.answer else {
        return Vec::new();
    };
    let [axioms, reflexive, loops, last] =
        [Pass::Axioms, Pass::Reflexive, Pass::Loops, Pass::Last].map(|pass| run.lengths[&pass]);
    let capped = listing.deferrals.iter().any(|deferral| deferral.1 == 9);
    let done = [
        reflexive > axioms,
        reflexive == axioms + CAP && !capped,
        capped,
        loops > reflexive,
        last > loops,
        has_memo_hit(listing, last - loops),
    ];
    LATE_PASSES
        .into_iter()
        .zip(done)
        .filter_map(|(what, done)| done.then_some(what))
        .collect()
}

/// Whether a name of the last `named` clauses, which name branches, stands in more than one place.
fn has_memo_hit(listing: &Listing, named: usize) -> bool {
    let clauses = &listing.clauses;
    let names: HashSet<u32> = clauses[clauses.len() - named..]
        .iter()
        .map(|clause| clause.head[0][2])
        .collect();
    let uses = clauses
        .iter()
        .flat_map(|clause| &clause.body)
        .filter(|atom| atom[0] == 1 && names.contains(&atom[2]))
        .count();
    uses > named
}

/// Whether a clause's body has more variables than the original's reasoner takes.
#[must_use]
pub fn is_wide(clause: &Clause) -> bool {
    let roles = clause.body.iter().filter(|atom| atom[0] == 2);
    distinct_vars(roles.map(|atom| (atom[4], atom[5]))) > MAX_BODY_VARS
}

/// Records of the clause, the atom and the deferral table.
#[must_use]
pub fn used(clauses: &[Clause], deferrals: &[(u32, u32)]) -> [usize; 3] {
    let atoms = clauses
        .iter()
        .map(|clause| clause.body.len() + clause.head.len())
        .sum();
    [clauses.len(), atoms, deferrals.len()]
}

/// What [`ends`] tells.
pub const ENDS: [&str; 7] = [
    "the clause table full",
    "the atom table full",
    "the deferral table full",
    "refused for one clause",
    "refused for one atom",
    "refused for one deferral",
    "refused for a body or head of 257 atoms",
];

/// Which ends a run met in tables of so many records; `generous` is the deck's run in the largest ones.
#[must_use]
pub fn ends(generous: &Run, run: &Run, rooms: [usize; 3]) -> Vec<&'static str> {
    let mut met = [false; 7];
    let is_refused = |run: &Run| {
        run.answer
            .as_ref()
            .is_err_and(|refusal| refusal.number == 12)
    };
    let needed = generous.most.rooms();
    match &run.answer {
        Ok(listing) => {
            let used = used(&listing.clauses, &listing.deferrals);
            for place in 0..3 {
                met[place] = rooms[place] > 0 && rooms[place] == used[place];
            }
        }
        Err(_) if is_refused(run) && generous.answer.is_ok() => {
            let short: Vec<usize> = (0..3).filter(|&at| rooms[at] < needed[at]).collect();
            if let [place] = short[..] {
                met[3 + place] = rooms[place] + 1 == needed[place];
            }
        }
        Err(_) => {
            // The tables have room for whatever clause comes next.
            let has_room = (0..3).all(|at| needed[at] + 512 < Limits::LARGEST.rooms()[at]);
            met[6] = is_refused(generous) && generous.most.in_hand == 256 && has_room;
        }
    }
    let told = ENDS.into_iter().zip(met);
    told.filter_map(|(what, met)| met.then_some(what)).collect()
}

/// What [`settled`] tells: of accepted decks, then of refusals while at-most fillers are put below their names.
pub const SETTLED: [&str; 9] = [
    "a filler below its name",
    "a limit named while others are settled",
    "a filler deferred",
    "refused 10 while settling",
    "refused 11 at a name",
    "refused 11 while a filler is absorbed",
    "refused 12 while settling, for a clause",
    "refused 12 while settling, for an atom",
    "refused 12 while settling, for a deferral",
];

/// What came of option 4 in tables of so many records; `generous` is the deck's run in the largest ones.
#[must_use]
pub fn settled(generous: &Run, run: &Run, rooms: [usize; 3]) -> Vec<&'static str> {
    let Settled {
        limits,
        on_the_way,
        deferrals,
        under_way,
        at_a_name,
    } = run.settled;
    let mut met = [false; 9];
    match &run.answer {
        Ok(_) => met[..3].copy_from_slice(&[limits > 0, on_the_way > 0, deferrals > 0]),
        Err(refusal) if under_way => {
            met[3] = refusal.number == 10;
            met[4] = refusal.number == 11 && at_a_name;
            met[5] = refusal.number == 11 && !at_a_name;
            let needed = generous.most.rooms();
            let short: Vec<usize> = (0..3).filter(|&at| rooms[at] < needed[at]).collect();
            if let (12, [place]) = (refusal.number, &short[..]) {
                met[6 + place] = true;
            }
        }
        Err(_) => {}
    }
    let told = SETTLED.into_iter().zip(met);
    told.filter_map(|(what, met)| met.then_some(what)).collect()
}

/// What [`followed`] tells: of the kinds of lines, then of the longest way.
pub fn all_followed() -> impl Iterator<Item = String> {
    let kinds = KINDS.map(of_kind).into_iter();
    kinds.chain([THREE_STEPS.to_owned()])
}

const THREE_STEPS: &str = "a role followed in three steps";

fn of_kind(kind: u32) -> String {
    format!("two steps in a line of kind {kind}")
}

/// In which kinds of lines of an accepted deck with option 8 a role takes two steps or more, and whether one took three.
#[must_use]
pub fn followed(deck: &Deck, run: &Run) -> Vec<String> {
    if !follows_roles(deck) {
        return Vec::new();
    }
    let kinds = kinds_in_two_steps(deck).into_iter().map(of_kind);
    let three = (run.steps > 2).then(|| THREE_STEPS.to_owned());
    kinds.chain(three).collect()
}

/// Counts by name.
#[derive(Clone, Debug, Default)]
pub struct Met(BTreeMap<String, usize>);

impl Met {
    pub fn note(&mut self, what: impl Into<String>) {
        *self.0.entry(what.into()).or_default() += 1;
    }

    #[must_use]
    pub fn times(&self, what: &str) -> usize {
        self.0.get(what).copied().unwrap_or(0)
    }

    pub fn print(&self) {
        for (what, count) in &self.0 {
            println!("{what}: {count}");
        }
    }
}
