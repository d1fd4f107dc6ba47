//! Generated decks: every one is accepted, and each shape keeps what it promises.

use std::collections::HashSet;

use deck::generate::{
    Shape, any, chained, counted_body_long, each, forms_at_limits, generate, names_at_limits,
    padded, reflexive_below_the_cap, unfolding,
};
use deck::random::Random;
use deck::write::{axiom_row, concept_row};
use deck::{Concept, Deck, read, write};

fn decks(shape: Shape, count: u64) -> impl Iterator<Item = Deck> {
    (0..count).map(move |seed| generate(&mut Random::new(seed), shape))
}

/// How many decks of a shape a test looks at.
fn count(shape: Shape) -> u64 {
    match shape {
        Shape::Small | Shape::MinZero | Shape::Inverse | Shape::Keys | Shape::Empty => 20_000,
        Shape::Following => 20_000,
        Shape::PoolFull | Shape::BodyLong | Shape::Tables | Shape::Limits => 2_000,
        _ => 5_000,
    }
}

#[test]
fn every_deck_is_read_back() {
    for shape in Shape::ALL {
        for (seed, deck) in decks(shape, count(shape)).enumerate() {
            let bytes = write(&deck);
            assert_eq!(read(&bytes).as_ref(), Ok(&deck), "{shape:?}, seed {seed}");
        }
    }
}

/// So is every deck that is no shape's.
#[test]
fn decks_beside_the_shapes_are_read_back() {
    for seed in 0..300 {
        let mut rng = Random::new(seed);
        let small = generate(&mut rng, Shape::Small);
        let decks = [
            chained(&mut rng, &small),
            reflexive_below_the_cap(&mut rng),
            unfolding(&mut rng, 3),
            counted_body_long(&mut rng),
            padded(&mut rng, &small, 0),
            padded(&mut rng, &small, 999_999),
            forms_at_limits(&mut rng),
            names_at_limits(&mut rng),
        ];
        for (place, deck) in decks.iter().enumerate() {
            assert_eq!(
                read(&write(deck)).as_ref(),
                Ok(deck),
                "{place}, seed {seed}"
            );
        }
    }
}

#[test]
fn same_seed_same_deck() {
    for seed in 0..200 {
        let (shape, deck) = any(&mut Random::new(seed));
        assert_eq!(any(&mut Random::new(seed)), (shape, deck));
        let drawn = each(&mut Random::new(seed));
        assert_eq!(each(&mut Random::new(seed)), drawn);
    }
}

#[test]
fn every_shape_has_every_option() {
    for shape in Shape::ALL {
        let options: HashSet<u32> = decks(shape, 4_000).map(|deck| deck.options).collect();
        assert_eq!(options.len(), 16, "{shape:?}");
    }
}

#[test]
fn decks_differ() {
    for shape in Shape::ALL {
        let different: HashSet<Vec<u8>> = decks(shape, 500).map(|deck| write(&deck)).collect();
        let least = if shape == Shape::Empty { 200 } else { 480 };
        assert!(different.len() >= least, "{shape:?}: {}", different.len());
    }
}

#[test]
fn min_zero_in_its_own_shape_alone() {
    let is_min_zero = |concept: &Concept| matches!(concept, Concept::Min(0, _, _));
    for shape in Shape::ALL {
        let with = decks(shape, 1_000)
            .filter(|deck| deck.concepts.iter().any(is_min_zero))
            .count();
        let expected = if shape == Shape::MinZero {
            900..=1_000
        } else {
            0..=0
        };
        assert!(expected.contains(&with), "{shape:?}: {with}");
    }
}

#[test]
fn small_decks_have_every_kind_and_few_lines() {
    let total = 4_000;
    let mut with_kind = [0; 37];
    let mut few = 0;
    for deck in decks(Shape::Small, total) {
        few += u64::from(deck.concepts.len() <= 12 && deck.axioms.len() <= 6);
        let concepts = deck.concepts.iter().map(|line| concept_row(line)[0]);
        let axioms = deck.axioms.iter().map(|line| axiom_row(line)[0]);
        let kinds: HashSet<u32> = concepts.chain(axioms).collect();
        for kind in kinds {
            with_kind[kind as usize] += 1;
        }
    }
    assert!(few > total * 3 / 4, "{few}");
    for kind in (1..=12).chain(21..=36) {
        assert!(
            with_kind[kind] > total / 25,
            "kind {kind}: {}",
            with_kind[kind]
        );
    }
}

#[test]
fn limits_are_reached() {
    let (mut bytes, mut concepts, mut axioms, mut lists) = (0, 0, 0, 0);
    for deck in decks(Shape::Limits, 300) {
        bytes += u32::from(write(&deck).len() == 65_536);
        concepts += u32::from(deck.concepts.len() == 1_024);
        axioms += u32::from(deck.axioms.len() == 1_024);
        lists += u32::from(deck.concepts.iter().any(|line| line.parts().len() == 128));
    }
    assert!(bytes > 5 && concepts > 5 && axioms > 5 && lists > 5);
    let deepest = decks(Shape::Deep, 300).map(|deck| depth(&deck)).max();
    assert_eq!(deepest, Some(64));
}

fn depth(deck: &Deck) -> u32 {
    let mut depths: Vec<u32> = Vec::new();
    for concept in &deck.concepts {
        let below = concept
            .parts()
            .iter()
            .map(|&part| depths[part as usize])
            .max();
        depths.push(1 + below.unwrap_or(0));
    }
    depths.into_iter().max().unwrap_or(0)
}

#[test]
fn any_gives_every_shape() {
    let mut rng = Random::new(5);
    let mut shapes = HashSet::new();
    let mut small = 0;
    for _ in 0..2_000 {
        let (shape, _) = any(&mut rng);
        small += u32::from(shape == Shape::Small);
        shapes.insert(shape);
    }
    assert_eq!(shapes.len(), Shape::ALL.len());
    assert!(small > 600);
}
