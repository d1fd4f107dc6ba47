//! The decks and states that are tried, and the texts whose reading is timed.

use deck::Axiom;
use deck::write::row;
use states::second::state::State;

use crate::decks::{AXIOMS, SEEDS};
use crate::draft::Draft;
use crate::extreme::four_variables;
use crate::fitted::fitted;
use crate::layout;
use crate::realistic::realistic;

/// A deck and a state of it.
pub struct Texts {
    pub deck: Vec<u8>,
    /// Empty where the deck's own reading is timed.
    pub state: Vec<u8>,
}

/// Decks and states of one kind.
pub struct Kind {
    pub name: &'static str,
    pub texts: Vec<Texts>,
    /// Whether the second evaluator ends in short time. Where it does not, all holds.
    pub second: bool,
}

pub const HELD: &str = "realistic, all holds";
pub const WHOLE: &str = "realistic, every pair";
pub const FOUR: &str = "65,536 clauses of four variables";

/// What is tried.
pub fn tried() -> Vec<Kind> {
    let fitted = SEEDS.map(|seed| fitted(seed, AXIOMS));
    let whole = fitted.each_ref().map(|(deck, _)| {
        let read = deck::read(deck).expect("a deck of the bench is accepted");
        (deck.clone(), layout::whole(&read))
    });
    let kind = |name, all: Vec<(Vec<u8>, State)>, second| {
        let texts = all.into_iter().map(|(deck, state)| Texts {
            deck,
            state: state.write(),
        });
        Kind {
            name,
            texts: texts.collect(),
            second,
        }
    };
    vec![
        kind(HELD, fitted.to_vec(), true),
        kind(WHOLE, whole.to_vec(), true),
        kind(FOUR, vec![four_variables()], false),
    ]
}

/// Texts that are refused at their last line, so that nothing but their reading is timed.
pub fn read() -> Vec<Kind> {
    let largest = SEEDS.map(|seed| realistic(seed, AXIOMS));
    let largest = largest.into_iter().max_by_key(Vec::len);
    let decks = [
        ("deck, realistic", largest.expect("a deck")),
        ("deck, lists of 128", lists()),
    ];
    let decks = decks.map(|(name, mut deck)| {
        spoil(&mut deck);
        let state = Vec::new();
        (name, Texts { deck, state })
    });
    let states = [
        ("state, 64 roles with every pair", Draft::new(0, 0, 64)),
        (
            "state, 4,096 classes with every element",
            Draft::new(4_096, 0, 0),
        ),
    ];
    let states = states.map(|(name, draft)| {
        let mut state = layout::whole(draft.deck()).write();
        spoil(&mut state);
        let deck = draft.bytes();
        (name, Texts { deck, state })
    });
    let texts = decks.into_iter().chain(states);
    texts
        .map(|(name, texts)| Kind {
            name,
            texts: vec![texts],
            second: false,
        })
        .collect()
}

/// A deck of nearly the most bytes, most of them in lists of 128 equivalent classes.
fn lists() -> Vec<u8> {
    let mut draft = Draft::new(128, 0, 0);
    let classes = draft.classes(0, 128);
    for _ in 0..44 {
        draft.axiom(Axiom::EquivalentClasses(classes.clone()));
    }
    draft.bytes()
}

/// A last line of no kind.
fn spoil(text: &mut Vec<u8>) {
    row(text, &[99]);
}

#[cfg(test)]
mod tests {
    use deck::Refusal;
    use states::second::read::{Rule, read as read_state};

    use super::{Kind, read};

    fn lines(text: &[u8]) -> u32 {
        u32::try_from(text.split_inclusive(|&byte| byte == b'\n').count()).expect("few lines")
    }

    #[test]
    fn texts_are_refused_at_their_last_line() {
        let kinds = read();
        let [realistic, lists, states @ ..] = &kinds[..] else {
            panic!("two decks come first")
        };
        for Kind { texts, .. } in [realistic, lists] {
            let deck = &texts[0].deck;
            assert!((50_000..=65_536).contains(&deck.len()), "{}", deck.len());
            let line = lines(deck);
            assert_eq!(deck::read(deck), Err(Refusal { number: 3, line }));
        }
        for Kind { texts, .. } in states {
            let deck = deck::read(&texts[0].deck).expect("an accepted deck");
            let state = &texts[0].state;
            assert!(state.len() > 2_500_000);
            let bad = read_state(&deck, 0, state).expect_err("a bad line");
            assert_eq!((bad.line, bad.rule), (lines(state), Rule::Kind));
        }
    }
}
