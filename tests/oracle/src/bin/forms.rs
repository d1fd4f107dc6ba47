//! The program `normalforms` beside the original, on generated decks.

use std::error::Error;

use oracle::sampling::{Original, command};
use oracle::{Forms, Limits, forms};

fn main() -> Result<(), Box<dyn Error>> {
    command([2, 6], original)
}

/// Of these the normal form meets visits, pool and members.
const LIMITS: Limits = Limits::LISTER;

fn original(deck: &[u8]) -> Original {
    let forms = forms(deck, &LIMITS);
    Original {
        is_accepted: forms.refusal.is_none(),
        answer: answer(deck, &forms),
        notes: forms
            .min_zero
            .then(|| "Min 0 lines".to_owned())
            .into_iter()
            .collect(),
        text: forms.text,
    }
}

/// The refusal and whether one more of what it tells of would do, or the limits that were reached.
fn answer(deck: &[u8], forms: &Forms) -> Vec<String> {
    let Some(refusal) = forms.refusal else {
        let mut answer = vec!["accepted".to_owned()];
        let reached = [
            ("visits", forms.most.visits == LIMITS.visits),
            ("concepts", forms.most.pool == LIMITS.pool),
            ("list members", forms.most.members == LIMITS.members),
        ];
        for (limit, _) in reached.iter().filter(|(_, reached)| *reached) {
            answer.push(format!("accepted at the limit of {limit}"));
        }
        return answer;
    };
    let mut answer = vec![format!("refused {:2}", refusal.number)];
    if refusal.number == 11 && forms.most.pool == LIMITS.pool {
        answer.push("refused 11 by the concepts".into());
    }
    if refusal.number >= 10 && passes_with_one_more(deck) {
        answer.push("refused 10 or 11 by one alone".into());
    }
    answer
}

/// Whether a deck is accepted if there may be one more visit, concept and list member.
fn passes_with_one_more(deck: &[u8]) -> bool {
    let limits = Limits {
        visits: LIMITS.visits + 1,
        pool: LIMITS.pool + 1,
        members: LIMITS.members + 1,
        ..LIMITS
    };
    forms(deck, &limits).refusal.is_none()
}
