//! Decks that dwell on the later passes: wide bodies, memo hits, reflexive roles up to the cap and past it, counted loops.
//! Each is without option 8 and gets through its axioms, and its tables are often just enough for these passes, or one record short.

use deck::Deck;
use deck::generate::{Shape, counted_body_long, generate, reflexive_below_the_cap, unfolding};
use deck::random::Random;
use oracle::met::used;
use oracle::{Limits, Pass, Passed, Run, run_with_stages};

use crate::decks::name;

pub struct Dwelling {
    pub kind: String,
    pub deck: Deck,
    /// Its run in the largest tables.
    pub generous: Run,
    /// Records to lend.
    pub rooms: [usize; 3],
}

/// The dwelling deck of a seed.
pub fn dwelling(rng: &mut Random, seed: u64) -> Dwelling {
    loop {
        let (kind, mut deck) = drawn(rng, seed);
        deck.options &= 7;
        let generous = run_with_stages(&deck, &Limits::LARGEST);
        if let Some(passed) = generous.stages.passes.get(&Pass::Axioms) {
            let rooms = rooms(rng, passed, &generous.most);
            return Dwelling {
                kind,
                deck,
                generous,
                rooms,
            };
        }
    }
}

/// After so many seeds the decks that take long come again.
const ROUND: u64 = 2_500;

fn drawn(rng: &mut Random, seed: u64) -> (String, Deck) {
    match seed % ROUND {
        more @ 0..=3 => {
            let more = u32::try_from(more).expect("up to 3");
            return ("Cap".into(), unfolding(rng, more));
        }
        4..=9 => return ("CountedBodyLong".into(), counted_body_long(rng)),
        10 => return (name(Shape::Tables), generate(rng, Shape::Tables)),
        _ => {}
    }
    let shape = match rng.weighted(&[40, 30, 15, 8, 4, 2, 1]) {
        0 => return (name(Shape::Reflexive), reflexive_below_the_cap(rng)),
        1 => Shape::Wide,
        2 => Shape::Small,
        3 => Shape::Inverse,
        4 => *rng.pick(&[Shape::Keys, Shape::MinZero, Shape::Empty, Shape::Deep]),
        5 => *rng.pick(&[Shape::Disjunctive, Shape::BodyLong, Shape::Mixed]),
        _ => Shape::Lists,
    };
    (name(shape), generate(rng, shape))
}

/// At least what the axioms need, and often just what the passes need, or one less.
fn rooms(rng: &mut Random, passed: &Passed, most: &Limits) -> [usize; 3] {
    let least = used(&passed.clauses, &passed.deferrals);
    let [needed, largest] = [most, &Limits::LARGEST].map(Limits::rooms);
    let mut rooms = [0; 3];
    for place in 0..3 {
        rooms[place] = needed[place] + *rng.pick(&[0, 0, 1, 2, 20]);
    }
    let place = rng.index(3);
    match rng.below(12) {
        0..=2 => rooms[place] = needed[place].saturating_sub(1),
        3 => rooms[place] = least[place] + rng.index(needed[place] - least[place] + 1),
        4 => rooms[place] = least[place],
        5 => rooms[place] = needed[place],
        _ => {}
    }
    [0, 1, 2].map(|place| rooms[place].clamp(least[place], largest[place]))
}
