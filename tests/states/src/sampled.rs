//! Pairs to be stored, with the second evaluator's and the original's answers.

use std::collections::HashMap;

use deck::Refusal;
use lent::STORE;
use oracle::{Answer, Limits, answer_min_zero};
use samples::sample::{Case as Sampled, Stored};

use crate::case::{Case, case};
use crate::outcome::Outcome;
use crate::second::judge::judge;
use crate::stored;
use crate::verdict::Test;
use crate::written::{Written, short};

/// Before the name of a pair that is written by hand; before the others stands the seed.
const WRITTEN: &str = "written ";

/// The pair that a stored name leads back to.
#[must_use]
pub fn named(name: &str) -> Option<Sampled> {
    if let Some(written) = name.strip_prefix(WRITTEN) {
        let all = short();
        let found = all.iter().find(|one| one.name == written)?;
        return Some(of_written(found));
    }
    let (seed, _) = name.split_once(' ')?;
    of_case(&case(seed.parse().ok()?))
}

/// Each outcome as text, one after the other.
fn answer(outcomes: &[Outcome; 2]) -> Stored {
    let mut text = Vec::new();
    for (test, outcome) in Test::BOTH.into_iter().zip(outcomes) {
        outcome.write(test, &mut text);
    }
    Stored::of(&text)
}

/// A generated pair, unless its sizes are refused.
fn of_case(case: &Case) -> Option<Sampled> {
    let rooms = case.sizes.rooms()?;
    Some(Sampled {
        name: format!("{} {}", case.seed, case.kind),
        deck: stored::input(rooms, case.sizes.0[3], case.texts()),
        answer: answer(&case.expected),
    })
}

/// What both calls on a pair written by hand must leave, by the second evaluator.
///
/// # Panics
/// Never: a deck that is accepted is read.
#[must_use]
pub fn outcomes(written: &Written) -> [Outcome; 2] {
    if written.store < STORE {
        return Outcome::refused(Refusal { number: 1, line: 0 });
    }
    let listing = match answer_min_zero(&written.deck, &Limits::tables(written.rooms)) {
        Answer::Accepted(listing) => listing,
        Answer::Refused(refusal) => return Outcome::refused(refusal),
        Answer::CannotHold => unreachable!("Min 0 lines are held"),
    };
    let deck = deck::read(&written.deck).expect("it was accepted");
    Test::BOTH.map(|test| {
        let verdict = judge(test, &deck, &listing, &written.state);
        verdict.map_or_else(Outcome::from, |verdict| Outcome::told(&listing, &verdict))
    })
}

fn of_written(written: &Written) -> Sampled {
    let texts = [&written.deck[..], &written.state];
    Sampled {
        name: format!("{WRITTEN}{}", written.name),
        deck: stored::input(written.rooms, written.store, texts),
        answer: answer(&outcomes(written)),
    }
}

/// Bytes of a short deck and state.
const SHORT: usize = 2_500;
/// How often the sample meets what a comparison meets.
const TIMES: usize = 3;

/// A sample: all that is written by hand and short, and of the seeds those that meet what was not met often enough.
#[must_use]
pub fn chosen(seed: u64, count: u64) -> Vec<Sampled> {
    let mut sampled: Vec<Sampled> = short().iter().map(of_written).collect();
    let mut met: HashMap<String, usize> = HashMap::new();
    for seed in seed..seed + count {
        let case = case(seed);
        let is_short = case.deck.len() + case.state.len() <= SHORT;
        let times = |what: &String| met.get(what).copied().unwrap_or(0);
        let is_new = case.met.iter().any(|what| times(what) < TIMES);
        if is_short && is_new {
            let pair = of_case(&case);
            if pair.is_some() {
                case.met
                    .iter()
                    .for_each(|what| *met.entry(what.clone()).or_default() += 1);
            }
            sampled.extend(pair);
        }
    }
    sampled
}
