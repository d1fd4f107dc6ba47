//! Decks with option 4, and without 8, whose at-most fillers are put below their names. Often a table ends meanwhile, and at fixed seeds the
//! visits or the pool.

use deck::Deck;
use deck::generate::{Shape, generate, names_at_limits, padded};
use deck::random::Random;
use oracle::{Limits, Run, run};

use crate::decks::name;

pub struct Settling {
    pub kind: String,
    pub deck: Deck,
    /// Its run in the largest tables.
    pub generous: Run,
    /// Records to lend.
    pub rooms: [usize; 3],
}

/// What the kinds of these decks begin with.
pub const KIND: &str = "limits, ";

/// The deck of a seed.
pub fn settling(rng: &mut Random, seed: u64) -> Settling {
    loop {
        let (kind, mut deck) = drawn(rng, seed);
        deck.options = deck.options & 3 | 4;
        let generous = run(&deck, &Limits::LARGEST);
        if generous.settled.limits > 0 {
            let rooms = match kind.as_str() {
                VISITS => generous.most.rooms(),
                _ => rooms(rng, &generous.most),
            };
            return Settling {
                kind: format!("{KIND}{kind}"),
                deck,
                generous,
                rooms,
            };
        }
    }
}

/// The kind of decks that visits end.
const VISITS: &str = "Visits";

/// After so many tens of seeds the decks that take long come again.
const ROUND: u64 = 200;

fn drawn(rng: &mut Random, seed: u64) -> (String, Deck) {
    match seed / 10 % ROUND {
        0 => return (VISITS.into(), of_visits(rng)),
        1..=10 => return ("Names".into(), names_at_limits(rng)),
        _ => {}
    }
    let shape = match rng.weighted(&[72, 10, 8, 5, 3, 2]) {
        0 => Shape::AtMost,
        1 => Shape::Small,
        2 => *rng.pick(&[Shape::Inverse, Shape::Keys, Shape::MinZero]),
        3 => Shape::Deep,
        4 => *rng.pick(&[Shape::Mixed, Shape::Lists]),
        _ => Shape::Shared,
    };
    (name(shape), generate(rng, shape))
}

/// Assertions first, so that the last of a million visits falls while limits are settled.
fn of_visits(rng: &mut Random) -> Deck {
    loop {
        let mut deck = generate(rng, Shape::AtMost);
        deck.options = deck.options & 3 | 4;
        let lines = padded(rng, &deck, 0);
        let own = run(&lines, &Limits::LARGEST).most.visits;
        let visits = rng.index(own + 1);
        let few = Limits {
            visits,
            ..Limits::LARGEST
        };
        if run(&lines, &few).settled.under_way {
            let rest = Limits::LARGEST.visits - visits;
            return padded(
                rng,
                &deck,
                u32::try_from(rest).expect("at most one million"),
            );
        }
    }
}

/// Mostly enough, often just enough or one record short.
pub fn rooms(rng: &mut Random, most: &Limits) -> [usize; 3] {
    let [needed, largest] = [most, &Limits::LARGEST].map(Limits::rooms);
    let mut rooms = needed.map(|needed| needed + *rng.pick(&[0, 0, 1, 2, 20]));
    let place = rng.index(3);
    match rng.below(10) {
        0 | 1 => rooms[place] = needed[place].saturating_sub(1),
        2 => rooms[place] = rng.index(needed[place] + 1),
        3 => rooms = needed,
        _ => {}
    }
    [0, 1, 2].map(|place| rooms[place].min(largest[place]))
}
