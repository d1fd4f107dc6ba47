//! The library and the second evaluator, pair after pair, up to the first difference.

use std::time::{Duration, Instant};

use deck::random::Random;
use oracle::met::{Met, all_followed};
use samples::sample::lines;

use crate::call::{Call, Library, Sizes};
use crate::case::{
    BEFORE_14, BEYOND, BEYOND_EMPTY, Case, TOGETHER, broken_name, case, chain_name, clause_name,
    held_name, rule_name,
};
use crate::points::{self, POINTS};
use crate::sampled::outcomes;
use crate::second::read::Rule;
use crate::shrink::shrunk;
use crate::sizes::{STORES, WRONG};
use crate::verdict::Test;
use crate::written::{long, short};

/// How far a comparison goes.
pub enum Until {
    Count(u64),
    Seconds(u64),
}

impl Until {
    fn has_come(&self, done: u64, begun: Instant) -> bool {
        match *self {
            Self::Count(count) => done == count,
            Self::Seconds(seconds) => begun.elapsed() >= Duration::from_secs(seconds),
        }
    }
}

/// What a comparison must meet.
#[must_use]
pub fn must() -> Vec<String> {
    let refusals = (1..=14).map(|number| format!("refused {number}"));
    let kinds = (21..=36).flat_map(|kind| [held_name(kind), broken_name(kind)]);
    let chains = [0, 1, 2, 3, 4, 5, 100, 128];
    let chains = chains
        .into_iter()
        .flat_map(|length| ["held", "broken"].map(|how| chain_name(length, how)));
    let clauses = (0..=4).map(clause_name);
    let rules = Rule::ALL.map(rule_name);
    let sizes = [1, 2, 3, 4, 5, 6, 7, 8, 64].map(|size| format!("{size} elements"));
    let others = [
        BEFORE_14,
        "10 before 13",
        "12 before 13",
        BEYOND,
        BEYOND_EMPTY,
        "a clause with an at-most atom broken",
        "a clause with an at-least atom broken",
        "clauses of up to 4 variables held",
    ];
    let told = others.iter().chain(&TOGETHER).chain(&POINTS);
    let told = told.chain(&STORES).chain(&WRONG);
    refusals
        .chain(kinds)
        .chain(chains)
        .chain(clauses)
        .chain(rules)
        .chain(sizes)
        .chain(all_followed())
        .chain(told.map(|&what| what.to_owned()))
        .collect()
}

/// Names the seed whose pair is under work where that panics.
struct UnderWork(u64);

impl Drop for UnderWork {
    fn drop(&mut self) {
        if std::thread::panicking() {
            println!("failed: seed {}: a panic", self.0);
        }
    }
}

/// Calls both entries on the pairs that are written by hand, and tells how many there are, or of the first difference.
fn written(library: &Library) -> Result<usize, String> {
    let mut call = Call::default();
    let mut rng = Random::new(0);
    let all = [short(), long()].concat();
    for written in &all {
        let sizes = Sizes::of_rooms(written.rooms, written.store);
        let texts = [&written.deck[..], &written.state];
        for (test, expected) in Test::BOTH.into_iter().zip(outcomes(written)) {
            let reply = call.make(&mut rng, library.entry(test), texts, &sizes);
            if let Some(difference) = call.difference(reply, texts, &expected) {
                return Err(format!("{}: {}: {difference}", written.name, test.name()));
            }
        }
    }
    Ok(all.len())
}

/// [`written`], printed; the last line is as of [`compare`].
#[must_use]
pub fn compare_written(library: &Library) -> bool {
    match written(library) {
        Ok(count) => {
            println!("{count} pairs written by hand");
            true
        }
        Err(difference) => {
            println!("failed: {difference}");
            println!("0 passed, 1 failed");
            false
        }
    }
}

/// Calls both entries on the pairs of one seed after the other, prints what they met, and whether all is well: there is no
/// difference, and all that must be met is. The last line is 'N passed, M failed'.
#[must_use]
pub fn compare(library: &Library, seed: u64, until: &Until) -> bool {
    println!("from seed {seed} on:");
    let begun = Instant::now();
    let mut call = Call::default();
    let mut met = Met::default();
    let mut done = 0;
    let mut is_different = false;
    while !is_different && !until.has_come(done, begun) {
        let seed = seed.wrapping_add(done);
        let _under_work = UnderWork(seed);
        let mut case = case(seed);
        if let Some(difference) = difference(&mut call, library, &mut case) {
            is_different = true;
            tell(&case, &difference);
            tell_shrunk(&mut call, library, &case);
        }
        case.met.iter().for_each(|what| met.note(what));
        done += 1;
    }
    let seconds = begun.elapsed().as_secs_f64();
    println!("{done} pairs from seed {seed} on, in {seconds:.1} s");
    met.print();
    sum(&met, is_different)
}

/// How the calls on a pair are not as expected. The points that were met are noted.
pub fn difference(call: &mut Call, library: &Library, case: &mut Case) -> Option<String> {
    let replies = match points::both(call, library, case) {
        Ok(replies) => replies,
        Err(difference) => return Some(difference),
    };
    let mut met = Vec::new();
    let difference = points::difference(call, library, case, replies, &mut met);
    case.met.extend(met.iter().map(|&point| point.to_owned()));
    difference
}

fn tell(case: &Case, difference: &str) {
    let Case { seed, kind, .. } = case;
    println!("failed: seed {seed} ({kind}): {difference}");
    println!("once more: tests/states/run {seed} 1");
    println!("bytes lent: {:?}", case.sizes.0);
    println!("the deck:\n{}", lines(&case.deck));
    println!("the state:\n{}", lines(&case.state));
}

fn tell_shrunk(call: &mut Call, library: &Library, case: &Case) {
    if let Some((deck, state, difference)) = shrunk(call, library, case) {
        println!("the smallest found: {difference}");
        println!("the deck:\n{}", lines(&deck::write(&deck)));
        println!("the state:\n{}", lines(&state.write()));
    }
}

/// Prints what is missing and the last line, and tells whether nothing failed.
fn sum(met: &Met, is_different: bool) -> bool {
    let must = must();
    let missing: Vec<&String> = must.iter().filter(|what| met.times(what) == 0).collect();
    let passed = must.len() - missing.len() + usize::from(!is_different);
    let mut failed = usize::from(is_different);
    // A comparison that ended early need not meet everything.
    if !is_different {
        for what in &missing {
            println!("failed: {what}: 0");
        }
        failed += missing.len();
    }
    println!("{passed} passed, {failed} failed");
    failed == 0
}
