//! The decks: every shape, mostly small ones, many of them damaged, and at fixed seeds those that take long, those that dwell
//! on the later passes, those with option 4 alone, and those with option 8.

use deck::Deck;
use deck::damage::{damage, over_limit};
use deck::generate::{
    Shape, counted_body_long, forms_at_limits, generate, padded, reflexive_below_the_cap, unfolding,
};
use deck::random::Random;
use oracle::{Limits, run};

use crate::case::Decks;

/// After so many seeds the decks that take long come again, and how many seeds have them.
const ROUND: u64 = 4_000;
const LONG: u64 = 10;

/// Which part of all decks a seed's is of: one in five is of [`crate::dwelling`], one in ten of [`crate::settling`], and one in
/// ten of [`crate::following`].
pub fn part(seed: u64) -> Decks {
    match seed % 10 {
        _ if seed % ROUND < LONG => Decks::Any,
        1 | 6 => Decks::Dwelling,
        3 => Decks::Limits,
        8 => Decks::Following,
        _ => Decks::Any,
    }
}

/// A deck's bytes and what it is; `generous` where the tables must be enough for it.
pub struct Drawn {
    pub kind: String,
    pub bytes: Vec<u8>,
    pub generous: bool,
    pub part: Decks,
}

/// The deck of a seed.
pub fn deck(rng: &mut Random, seed: u64) -> Drawn {
    let generous = matches!(seed % ROUND, 0..=4);
    let (kind, deck) = match seed % ROUND {
        0 => ("Cap", unfolding(rng, 1)),
        1 => ("Cap", unfolding(rng, 2)),
        2 => ("Visits", of_visits(rng, |_, _| 0)),
        3 => ("Visits", of_visits(rng, |_, _| 1)),
        4 => ("CountedBodyLong", counted_body_long(rng)),
        5 | 6 => ("Visits", of_visits(rng, |rng, own| rng.between(1, own))),
        7 => {
            let more = rng.between(0, 3);
            ("Cap", unfolding(rng, more))
        }
        8 => ("CountedBodyLong", counted_body_long(rng)),
        9 => ("Forms", forms_at_limits(rng)),
        _ => return by_chance(rng),
    };
    let part = match kind {
        "Cap" | "CountedBodyLong" => Decks::Dwelling,
        _ => Decks::Any,
    };
    Drawn {
        kind: kind.into(),
        bytes: deck::write(&deck),
        generous,
        part,
    }
}

const SMALL: [(Shape, u32); 6] = [
    (Shape::Small, 300),
    (Shape::Inverse, 80),
    (Shape::Keys, 80),
    (Shape::AtMost, 40),
    (Shape::MinZero, 60),
    (Shape::Empty, 20),
];

const CHAINS: [(Shape, u32); 1] = [(Shape::Following, 1)];

const LARGER: [(Shape, u32); 10] = [
    (Shape::Wide, 25),
    (Shape::Disjunctive, 25),
    (Shape::Deep, 20),
    (Shape::Mixed, 15),
    (Shape::BodyLong, 12),
    (Shape::PoolFull, 8),
    (Shape::Lists, 8),
    (Shape::Limits, 6),
    (Shape::Shared, 2),
    (Shape::Tables, 2),
];

/// The shapes without chains of inverse declarations are drawn as without those.
fn by_chance(rng: &mut Random) -> Drawn {
    let chains = rng.beside(32).below(40);
    let (kind, bytes) = match rng.weighted(&[540, 125, 40, 270, 15, 10]) {
        0 if chains == 0 => shaped(rng, &CHAINS),
        3 if chains == 0 => damaged(rng, &CHAINS),
        0 => shaped(rng, &SMALL),
        1 => shaped(rng, &LARGER),
        2 => {
            let deck = reflexive_below_the_cap(rng);
            (name(Shape::Reflexive), deck::write(&deck))
        }
        3 => damaged(rng, &SMALL),
        4 => damaged(rng, &LARGER),
        _ => ("Over".into(), over_limit(rng)),
    };
    Drawn {
        kind,
        bytes,
        generous: false,
        part: Decks::Any,
    }
}

fn shaped(rng: &mut Random, shapes: &[(Shape, u32)]) -> (String, Vec<u8>) {
    let weights: Vec<u32> = shapes.iter().map(|&(_, weight)| weight).collect();
    let (shape, _) = shapes[rng.weighted(&weights)];
    (name(shape), deck::write(&generate(rng, shape)))
}

fn damaged(rng: &mut Random, shapes: &[(Shape, u32)]) -> (String, Vec<u8>) {
    let (kind, bytes) = shaped(rng, shapes);
    (format!("{kind} damaged"), damage(rng, &bytes))
}

/// The kind of a shape's decks.
pub fn name(shape: Shape) -> String {
    format!("{shape:?}")
}

/// A small deck with assertions up to one million visits and some more, drawn from its own visits. Those of its clauses
/// come last.
fn of_visits(rng: &mut Random, more: impl Fn(&mut Random, u32) -> u32) -> Deck {
    let shapes = [
        Shape::Small,
        Shape::Inverse,
        Shape::Keys,
        Shape::AtMost,
        Shape::Disjunctive,
        Shape::Deep,
    ];
    loop {
        let shape = *rng.pick(&shapes);
        let deck = generate(rng, shape);
        let lines = padded(rng, &deck, 0);
        let run = run(&lines, &Limits::LARGEST);
        let own = u32::try_from(run.most.visits).expect("at most one million");
        if run.answer.is_ok() && own > 0 {
            let visits = 1_000_000 + more(rng, own);
            return padded(rng, &deck, visits - own);
        }
    }
}
