//! Decks with option 8 to be stored, with the instrumented copy's answers.

use std::collections::HashMap;

use samples::sample::{self, write};

use crate::case::{Decks, case, sampled};

/// Bytes that a deck takes in the file.
const SHORT: usize = 1_500;
/// How often the sample meets what a comparison meets.
const TIMES: usize = 12;

/// Of the seeds' decks with option 8 the short ones that meet what was not met often enough.
#[must_use]
pub fn chosen(seed: u64, count: u64) -> Vec<sample::Case> {
    let mut chosen = Vec::new();
    let mut met: HashMap<String, usize> = HashMap::new();
    for seed in seed..seed + count {
        let case = case(seed, Decks::Following);
        let times = |what: &String| met.get(what).copied().unwrap_or(0);
        if case.met.iter().all(|what| times(what) >= TIMES) {
            continue;
        }
        let stored = sampled(&case);
        if write(std::slice::from_ref(&stored)).len() <= SHORT {
            for what in case.met {
                *met.entry(what).or_default() += 1;
            }
            chosen.push(stored);
        }
    }
    chosen
}
