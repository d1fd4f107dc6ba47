//! The program `clauses` beside the original, on generated decks.

use std::error::Error;

use oracle::sampling::{Original, command};
use oracle::{Clauses, Limits, clauses};

fn main() -> Result<(), Box<dyn Error>> {
    command([1, 2], original)
}

/// The tables that the program lends.
const LIMITS: Limits = Limits::LISTER;

fn original(deck: &[u8]) -> Original {
    let clauses = clauses(deck, &LIMITS);
    Original {
        is_accepted: clauses.refusal.is_none(),
        answer: answer(&clauses),
        notes: notes(&clauses),
        text: clauses.text,
    }
}

/// The refusal, or the deferrals' kinds and the table ends that were reached; and what came of option 4.
fn answer(clauses: &Clauses) -> Vec<String> {
    let Some(passed) = &clauses.passed else {
        let refusal = clauses.refusal.expect("a deck without clauses is refused");
        let mut answer = vec![format!("refused {:2}", refusal.number)];
        if clauses.settled.under_way {
            answer.push("refused while settling".into());
        }
        return answer;
    };
    let mut answer = vec!["accepted".to_owned()];
    if clauses.settled.limits > 0 {
        answer.push("accepted with a filler below its name".into());
    }
    if clauses.settled.on_the_way > 0 {
        answer.push("accepted with a limit named while others are settled".into());
    }
    for kind in 1..=9 {
        if passed.deferrals.iter().any(|deferral| deferral.1 == kind) {
            answer.push(format!("accepted with deferral {kind}"));
        }
    }
    let atoms: usize = passed
        .clauses
        .iter()
        .map(|clause| clause.body.len() + clause.head.len())
        .sum();
    let ends = [
        ("clause", passed.clauses.len() == LIMITS.clauses),
        ("atom", atoms == LIMITS.atoms),
        ("deferral", passed.deferrals.len() == LIMITS.deferrals),
    ];
    for (table, _) in ends.iter().filter(|(_, reached)| *reached) {
        answer.push(format!("accepted at the end of the {table} table"));
    }
    if clauses.text.len() > 100_000 {
        answer.push("accepted with more than 100,000 bytes of text".into());
    }
    answer
}

fn notes(clauses: &Clauses) -> Vec<String> {
    let mut notes = Vec::new();
    if clauses.min_zero {
        notes.push("Min 0 lines".to_owned());
    }
    if let Some(passed) = &clauses.passed {
        if passed.fresh > 0 {
            notes.push("accepted with fresh classes".to_owned());
        }
        if passed.clauses.is_empty() {
            notes.push("accepted without a clause".to_owned());
        }
    }
    notes
}
