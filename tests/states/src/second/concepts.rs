//! The elements of each concept, by OWL 2 Direct Semantics.

use deck::Concept;

use crate::second::world::{World, holds};

/// Of each concept line its elements, rising.
#[must_use]
pub fn extents(world: &World, concepts: &[Concept]) -> Vec<Vec<u32>> {
    let mut extents: Vec<Vec<u32>> = Vec::with_capacity(concepts.len());
    for concept in concepts {
        extents.push(extent(world, &extents, concept));
    }
    extents
}

/// The elements of a concept, rising, given those of its parts.
#[must_use]
pub fn extent(world: &World, extents: &[Vec<u32>], concept: &Concept) -> Vec<u32> {
    let elements = world.elements();
    let extent = elements.filter(|&element| is_in(world, extents, concept, element));
    extent.collect()
}

/// Whether an element is in a concept whose parts have these elements.
fn is_in(world: &World, extents: &[Vec<u32>], concept: &Concept, x: u32) -> bool {
    let part = |part: u32, y: u32| holds(&extents[part as usize], y);
    let led_into = |role: u32, filler: u32| {
        let led = world.led_to(role, x).filter(|&y| part(filler, y));
        led.count()
    };
    match *concept {
        Concept::Top => true,
        Concept::Bot => false,
        Concept::Atomic(class) => world.is_in(class, x),
        Concept::Nominal(individual) => world.individuals[individual as usize] == x,
        Concept::SelfRestriction(role) => world.is_related(role, x, x),
        Concept::Not(negated) => !part(negated, x),
        Concept::And(ref list) => list.iter().all(|&member| part(member, x)),
        Concept::Or(ref list) => list.iter().any(|&member| part(member, x)),
        Concept::Some(role, filler) => led_into(role, filler) > 0,
        Concept::All(role, filler) => world.led_to(role, x).all(|y| part(filler, y)),
        Concept::Min(n, role, filler) => led_into(role, filler) >= n as usize,
        Concept::Max(n, role, filler) => led_into(role, filler) <= n as usize,
    }
}
