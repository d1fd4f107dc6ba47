//! The second evaluator on decks and states that are written by hand.

use std::collections::HashSet;

use states::sampled::outcomes;
use states::written::{Written, long, short};
use states::{Outcome, Test};

/// What an outcome says, as numbers: 0 holds; 1, line or number, elements; 2, refusal, line.
fn said(outcome: &Outcome) -> Vec<u32> {
    if let Some(refusal) = outcome.refusal() {
        return vec![2, refusal.number, refusal.line];
    }
    if outcome.reply == 0 {
        return vec![0];
    }
    let verdict = &outcome.words[3][10..];
    [&[1, verdict[0]], &verdict[2..]].concat()
}

fn assert_said(all: &[Written]) {
    let mut wrong = Vec::new();
    for written in all {
        let told = [&written.axioms, &written.clauses];
        for ((test, outcome), told) in Test::BOTH.into_iter().zip(outcomes(written)).zip(told) {
            let said = said(&outcome);
            if said != *told {
                let name = &written.name;
                wrong.push(format!("{name}: {test:?}: {said:?}, not {told:?}"));
            }
        }
    }
    assert!(wrong.is_empty(), "{}", wrong.join("\n"));
}

#[test]
fn short_ones() {
    assert_said(&short());
}

#[test]
fn long_ones() {
    assert_said(&long());
}

#[test]
fn each_has_a_name_of_its_own() {
    let all = [short(), long()].concat();
    let names: HashSet<&String> = all.iter().map(|written| &written.name).collect();
    assert_eq!(names.len(), all.len());
}
