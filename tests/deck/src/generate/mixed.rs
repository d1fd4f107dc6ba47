//! Decks drawn line by line: small and larger mixtures, Min 0, inverse declarations, data keys.

use super::builder::Builder;
use super::draw::{EVEN, Taste};
use crate::Axiom;

pub fn small(builder: &mut Builder) {
    small_names(builder);
    match builder.rng.below(8) {
        0..=3 => small_lines(builder, &EVEN),
        4..=6 => small_trees(builder),
        _ => {
            let constants = [builder.top(), builder.bot()];
            for constant in constants {
                builder.not(constant);
            }
            small_lines(builder, &CONSTANTS);
        }
    }
}

/// Mostly what normal forms fold: Top, Bot, negations and lists.
const CONSTANTS: Taste = Taste {
    concepts: [4, 4, 3, 1, 0, 8, 6, 6, 1, 1, 1, 1],
    ..EVEN
};

/// Inclusions made of concepts of their own: a soft antecedent, often with a hard part, and any consequent.
fn small_trees(builder: &mut Builder) {
    let soft = Taste {
        concepts: [1, 0, 6, 2, 0, 0, 3, 3, 5, 0, 0, 0],
        ..EVEN
    };
    random_keys(builder);
    for _ in 0..builder.rng.between(1, 2) {
        let levels = builder.rng.between(1, 2);
        let mut sub = builder.tree(levels, &soft);
        if builder.rng.chance(1, 2) {
            let levels = builder.rng.between(1, 2);
            let hard = builder.tree(levels, &EVEN);
            sub = builder.and(&[sub, hard]);
        }
        let levels = builder.rng.between(1, 3);
        let sup = builder.tree(levels, &EVEN);
        builder.axiom(Axiom::SubClassOf(sub, sup));
    }
    let axioms = builder.rng.below(4);
    builder.random_axioms(axioms, &EVEN);
    if builder.rng.chance(1, 2) {
        builder.shuffle_axioms();
    }
}

pub fn min_zero(builder: &mut Builder) {
    let mut taste = Taste {
        min_zero: true,
        ..EVEN
    };
    taste.concepts[11 - 1] = 12;
    small_names(builder);
    if builder.deck().roles > 0 {
        let part = builder.random_concept(&taste);
        let role = builder.role();
        builder.min(0, role, part);
    }
    small_lines(builder, &taste);
}

pub fn mixed(builder: &mut Builder) {
    let classes = builder.rng.between(5, 40);
    let individuals = builder.rng.below(6);
    let roles = builder.rng.between(2, 8);
    builder.declare(classes, individuals, roles);
    random_keys(builder);
    let taste = Taste { list: 6, ..EVEN };
    let lines = builder.rng.between(15, 120);
    builder.random_concepts(lines, &taste);
    let axioms = builder.rng.between(5, 60);
    builder.random_axioms(axioms, &taste);
}

pub fn inverse(builder: &mut Builder) {
    let mut taste = EVEN;
    taste.concepts = [1, 0, 4, 1, 3, 3, 3, 3, 6, 6, 3, 3];
    taste.axioms = [8, 1, 1, 1, 3, 3, 4, 3, 2, 2, 4, 3, 3, 3, 3, 1];
    let classes = builder.rng.between(1, 4);
    let individuals = builder.rng.below(3);
    let roles = builder.rng.between(2, 6);
    builder.declare(classes, individuals, roles);
    let lines = builder.rng.between(3, 14);
    builder.random_concepts(lines, &taste);
    for _ in 0..builder.rng.between(1, 4) {
        inverse_group(builder);
    }
    let axioms = builder.rng.between(2, 8);
    builder.random_axioms(axioms, &taste);
    if builder.rng.chance(2, 3) {
        builder.shuffle_axioms();
    }
}

/// A few declarations that meet in a role.
fn inverse_group(builder: &mut Builder) {
    let [r, s, t] = [(); 3].map(|()| builder.named_role());
    let pairs = match builder.rng.below(9) {
        0 => vec![(r, s), (s, t)],
        1 => vec![(r, s), (t, r)],
        2 => vec![(r, s), (r, s)],
        3 => vec![(r, s), (s, r)],
        4 => vec![(r, r), (r, s)],
        5 => vec![(r + 1, s), (r, s + 1), (r + 1, s + 1)],
        6 => vec![(r, s), (r, t)],
        7 => vec![(s, r), (t, r)],
        _ => ring(builder.deck().roles),
    };
    for (first, second) in pairs {
        builder.axiom(Axiom::Inverse(first, second));
    }
}

/// Each role with the next, the last with the first.
fn ring(roles: u32) -> Vec<(u32, u32)> {
    (0..roles)
        .map(|role| (2 * role, 2 * ((role + 1) % roles)))
        .collect()
}

pub fn keys(builder: &mut Builder) {
    let classes = builder.rng.between(2, 5);
    let individuals = builder.rng.below(3);
    let roles = builder.rng.between(1, 3);
    builder.declare(classes, individuals, roles);
    for _ in 0..builder.rng.between(1, 4) {
        let class = builder.class();
        builder.key(class);
    }
    let fillers = key_fillers(builder);
    let count = builder.rng.between(2, 6);
    let counted: Vec<u32> = (0..count)
        .map(|_| {
            let role = builder.role();
            let filler = *builder.rng.pick(&fillers);
            builder.cardinality(role, filler)
        })
        .collect();
    for _ in 0..builder.rng.between(1, 5) {
        let axiom = key_axiom(builder, &counted);
        builder.axiom(axiom);
    }
    let lines = builder.len() + builder.rng.below(4);
    builder.random_concepts(lines, &EVEN);
    let axioms = builder.rng.below(4);
    builder.random_axioms(axioms, &EVEN);
}

/// Marked and unmarked classes, and what may be taken for one.
fn key_fillers(builder: &mut Builder) -> Vec<u32> {
    let mark = *builder.rng.pick(&builder.deck().keys.clone());
    let marked = builder.atomic(mark);
    let other = builder.any_atomic();
    let mut fillers = vec![marked, marked, other];
    if builder.deck().individuals > 0 {
        let individual = builder.individual();
        fillers.push(builder.nominal(individual));
    }
    for _ in 0..builder.rng.below(3) {
        let compound = match builder.rng.below(5) {
            0 => builder.and(&[marked, other]),
            1 => builder.or(&[marked, other]),
            2 => builder.not(marked),
            3 => {
                let role = builder.role();
                builder.cardinality(role, marked)
            }
            _ => builder.top(),
        };
        fillers.push(compound);
    }
    fillers
}

/// Cardinalities as a head, as disjuncts, below another concept, and in an antecedent.
fn key_axiom(builder: &mut Builder, counted: &[u32]) -> Axiom {
    let class = builder.any_atomic();
    let first = *builder.rng.pick(counted);
    let second = *builder.rng.pick(counted);
    let role = builder.role();
    match builder.rng.below(10) {
        0 => Axiom::SubClassOf(class, first),
        1 | 2 => {
            let other = builder.any_atomic();
            Axiom::SubClassOf(class, builder.or(&[other, first, second]))
        }
        3 => Axiom::SubClassOf(class, builder.and(&[first, second])),
        4 => Axiom::SubClassOf(class, builder.some(role, first)),
        5 => Axiom::SubClassOf(class, builder.all(role, first)),
        6 => {
            let other = builder.any_atomic();
            Axiom::SubClassOf(builder.and(&[class, first]), other)
        }
        7 => Axiom::SubClassOf(first, class),
        8 => Axiom::Range(role, first),
        _ => Axiom::EquivalentClasses(vec![class, first]),
    }
}

/// Few names, now and then none of a sort.
fn small_names(builder: &mut Builder) {
    let classes = builder.rng.between(1, 4);
    let individuals = builder.rng.below(3);
    let roles = builder.rng.between(1, 3);
    let has_classes = builder.rng.chance(24, 25);
    let has_roles = builder.rng.chance(24, 25);
    builder.declare(
        classes * u32::from(has_classes),
        individuals,
        roles * u32::from(has_roles),
    );
}

fn small_lines(builder: &mut Builder, taste: &Taste) {
    random_keys(builder);
    let most = if builder.rng.chance(1, 12) { 20 } else { 11 };
    let lines = builder.rng.between(2, most);
    builder.random_concepts(lines, taste);
    let most = if builder.rng.chance(1, 12) { 12 } else { 6 };
    let axioms = builder.rng.between(1, most);
    builder.random_axioms(axioms, taste);
}

/// One or two marks in one deck of four.
fn random_keys(builder: &mut Builder) {
    if builder.deck().classes > 0 && builder.rng.chance(1, 4) {
        for _ in 0..builder.rng.between(1, 2) {
            let class = builder.class();
            builder.key(class);
        }
    }
}
