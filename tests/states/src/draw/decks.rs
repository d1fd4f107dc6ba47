//! The decks: mostly small ones, of shapes that dwell on the tests and of every shape in tests/deck, some of them damaged; at fixed
//! seeds those that take long.

use deck::Deck;
use deck::damage::damage;
use deck::generate::{Shape, generate, reflexive_below_the_cap, unfolding};
use deck::random::Random;
use oracle::{Limits, run};

use super::{many, shapes};

/// After so many seeds the decks that take long come again.
pub const ROUND: u64 = 2_000;

/// What a state of the deck is to be.
#[derive(Clone, Copy, Debug, PartialEq, Eq)]
pub enum Wish {
    Small,
    /// As many elements as the deck's clauses let be tested in short time, up to 64.
    Large,
    /// Up to 64 elements, also where that takes longer.
    Most,
    /// A text that is no state.
    Bad,
    /// Megabytes.
    Full,
}

pub struct Drawn {
    pub kind: String,
    pub bytes: Vec<u8>,
    pub wish: Wish,
    /// The tables must be enough for it.
    pub generous: bool,
}

/// The deck of a seed.
pub fn deck(rng: &mut Random, seed: u64) -> Drawn {
    let (kind, deck, wish) = match seed % ROUND {
        0 => ("Visits", shapes::visits(rng), Wish::Bad),
        1 => ("Full", many::many_roles(rng), Wish::Full),
        2 => ("PoolFull", past_the_pool(rng), Wish::Small),
        3 => ("Tables", generate(rng, Shape::Tables), Wish::Small),
        4 => ("Cap", unfolding(rng, 1), Wish::Small),
        5 => ("Limits", generate(rng, Shape::Limits), Wish::Small),
        6 => ("Visits", shapes::visits(rng), Wish::Small),
        7 => ("Bound", shapes::greatest_bound(rng), Wish::Small),
        _ => return by_chance(rng),
    };
    Drawn {
        kind: kind.into(),
        bytes: deck::write(&deck),
        wish,
        generous: true,
    }
}

/// A deck that is refused by 11, mostly.
fn past_the_pool(rng: &mut Random) -> Deck {
    let mut deck = generate(rng, Shape::PoolFull);
    for _ in 0..30 {
        let answer = run(&deck, &Limits::LARGEST).answer;
        if answer.is_err_and(|refusal| refusal.number == 11) {
            break;
        }
        deck = generate(rng, Shape::PoolFull);
    }
    deck
}

fn by_chance(rng: &mut Random) -> Drawn {
    let mut generous = false;
    let mut wish = if rng.chance(1, 25) {
        Wish::Large
    } else {
        Wish::Small
    };
    let (kind, deck) = match rng.weighted(&[180, 180, 40, 150, 60, 12, 12, 4, 300]) {
        0 => ("One".into(), shapes::one(rng)),
        1 => ("Few".into(), shapes::few(rng)),
        2 => ("Each".into(), shapes::each(rng)),
        3 => ("Variables".into(), shapes::variables(rng)),
        4 => ("Chains".into(), shapes::chains(rng)),
        5 => {
            generous = rng.chance(3, 4);
            ("MostNames".into(), shapes::most_names(rng))
        }
        6 => {
            wish = Wish::Most;
            ("FewVariables".into(), many::few_variables(rng))
        }
        7 => ("MostFresh".into(), shapes::most_fresh(rng)),
        _ => of_shape(rng),
    };
    let mut bytes = deck::write(&deck);
    let mut kind: String = kind;
    if rng.chance(1, 20) {
        bytes = damage(rng, &bytes);
        kind += " damaged";
    }
    Drawn {
        kind,
        bytes,
        wish,
        generous,
    }
}

const SHAPES: [(Shape, u32); 14] = [
    (Shape::Small, 150),
    (Shape::Inverse, 40),
    (Shape::Keys, 30),
    (Shape::MinZero, 30),
    (Shape::AtMost, 60),
    (Shape::Empty, 15),
    (Shape::Reflexive, 20),
    (Shape::Wide, 10),
    (Shape::Disjunctive, 10),
    (Shape::Deep, 8),
    (Shape::Mixed, 8),
    (Shape::Lists, 4),
    (Shape::BodyLong, 2),
    (Shape::PoolFull, 1),
];

fn of_shape(rng: &mut Random) -> (String, Deck) {
    let weights = SHAPES.map(|(_, weight)| weight);
    let shape = if rng.beside(32).chance(1, 10) {
        Shape::Following
    } else {
        SHAPES[rng.weighted(&weights)].0
    };
    let deck = match shape {
        Shape::Reflexive => reflexive_below_the_cap(rng),
        _ => generate(rng, shape),
    };
    (format!("{shape:?}"), deck)
}
