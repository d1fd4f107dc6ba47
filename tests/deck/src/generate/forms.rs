//! Decks whose normal forms alone end around a limit: one million visits, 2,048 concepts, or both.

use super::builder::Builder;
use super::full::{POOL_CONCEPTS, complemented_chains};
use crate::Axiom;

const VISITS: u32 = 1_000_000;

pub fn forms(builder: &mut Builder) {
    builder.declare(1_000, 1, 2);
    match builder.rng.below(5) {
        0 | 1 => last_visits(builder, true),
        2 | 3 => last_list(builder),
        _ => {
            last_visits(builder, false);
            last_list(builder);
        }
    }
    if builder.rng.chance(3, 4) {
        builder.shuffle_axioms();
    }
}

/// One million visits, or a few more or less, in axioms whose sizes fall; with negations normal forms are new concepts.
fn last_visits(builder: &mut Builder, negations: bool) {
    let mut concept = builder.atomic(999);
    let mut size = 1;
    let mut sizes = vec![(concept, size)];
    for _ in 0..builder.rng.between(12, 17) {
        let paths = [builder.some(0, concept), builder.all(1, concept)];
        concept = builder.and(&paths);
        size = 2 * size + 3;
        if negations && builder.rng.chance(1, 3) {
            sizes.push((builder.not(concept), size + 1));
        } else if builder.rng.chance(2, 3) {
            sizes.push((concept, size));
        }
    }
    let mut rest = builder.rng.between(VISITS - 2, VISITS + 2);
    for &(concept, size) in sizes.iter().rev() {
        while size <= rest {
            rest -= size;
            let axiom = axiom_of_one(builder, concept);
            builder.axiom(axiom);
        }
    }
}

/// An axiom with one concept.
fn axiom_of_one(builder: &mut Builder, concept: u32) -> Axiom {
    let role = builder.role();
    match builder.rng.below(4) {
        0 => Axiom::ClassAssertion(concept, 0),
        1 => Axiom::Domain(role, concept),
        2 => Axiom::Range(role, concept),
        _ => Axiom::EquivalentClasses(vec![concept]),
    }
}

/// 2,048 concepts, or one more or less, the last of them an And of negations where the axioms stay in order.
fn last_list(builder: &mut Builder) {
    let before = builder.len();
    let (chains, pool) = complemented_chains(builder);
    // Each member brings its line and its negation; the Or, its Not and the And come besides.
    let most = builder.rng.between(POOL_CONCEPTS - 1, POOL_CONCEPTS + 1);
    let left = most - before - pool - 3;
    if left % 2 == 1 {
        builder.nominal(0);
    }
    let members: Vec<u32> = (chains..chains + left / 2)
        .map(|class| builder.atomic(class))
        .collect();
    let choice = builder.or(&members);
    let none = builder.not(choice);
    builder.axiom(Axiom::ClassAssertion(none, 0));
}
