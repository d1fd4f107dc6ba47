//! Decks with option 8 in which a role is followed through two mappings or more. Often a table ends meanwhile.

use deck::Deck;
use deck::generate::{Shape, chained, generate, reflexive_below_the_cap};
use deck::random::Random;
use oracle::{Limits, Run, run, run_with_stages};

use crate::decks::name;
use crate::settling::rooms;

pub struct Following {
    pub kind: String,
    pub deck: Deck,
    /// Its run in the largest tables.
    pub generous: Run,
    /// Records to lend.
    pub rooms: [usize; 3],
    /// One step instead gives another answer.
    pub is_other: bool,
}

/// What the kinds of these decks begin with.
pub const KIND: &str = "following, ";

/// The next deck of these.
pub fn following(rng: &mut Random) -> Following {
    loop {
        let (kind, mut deck) = drawn(rng);
        deck.options |= 8;
        let generous = run_with_stages(&deck, &Limits::LARGEST);
        if generous.steps > 1 {
            let rooms = rooms(rng, &generous.most);
            let mut one_step = deck.clone();
            one_step.options -= 8;
            let is_other = run(&one_step, &Limits::LARGEST).answer != generous.answer;
            return Following {
                kind: format!("{KIND}{kind}"),
                deck,
                generous,
                rooms,
                is_other,
            };
        }
    }
}

/// A deck with chains, or of another shape with chains put into it.
fn drawn(rng: &mut Random) -> (String, Deck) {
    let shape = match rng.weighted(&[60, 12, 6, 6, 6, 6, 4]) {
        0 => Shape::Following,
        1 => Shape::Small,
        2 => Shape::Inverse,
        3 => Shape::Reflexive,
        4 => Shape::Wide,
        5 => Shape::AtMost,
        _ => *rng.pick(&[
            Shape::Keys,
            Shape::MinZero,
            Shape::Deep,
            Shape::Disjunctive,
            Shape::Mixed,
        ]),
    };
    let deck = match shape {
        Shape::Following => generate(rng, shape),
        Shape::Reflexive => {
            let deck = reflexive_below_the_cap(rng);
            chained(rng, &deck)
        }
        _ => {
            let deck = generate(rng, shape);
            chained(rng, &deck)
        }
    };
    (name(shape), deck)
}
