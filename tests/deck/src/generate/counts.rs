//! Decks whose counts stand at their limits, and decks with next to nothing.

use super::builder::Builder;
use super::draw::{EVEN, Taste};
use crate::Axiom;
use crate::limits::{AXIOMS, CLASSES, CONCEPTS, DEPTH, INDIVIDUALS, LIST, ROLES};
use crate::write::lists_of_bytes;

pub fn limits(builder: &mut Builder) {
    match builder.rng.below(6) {
        0 => greatest_names(builder),
        1 => most_concepts(builder),
        2 => most_axioms(builder),
        3 => {
            most_concepts(builder);
            most_axioms(builder);
        }
        4 => full_lists(builder),
        _ => most_bytes(builder),
    }
}

/// All names that a deck may declare, the last of them in use.
fn greatest_names(builder: &mut Builder) {
    builder.declare(CLASSES, INDIVIDUALS, ROLES);
    let (class, individual) = (CLASSES - 1, INDIVIDUALS - 1);
    let (role, inverse) = (2 * ROLES - 2, 2 * ROLES - 1);
    if builder.rng.chance(1, 2) {
        builder.key(class);
    }
    let leaf = builder.atomic(class);
    let nominal = builder.nominal(individual);
    let head = builder.some(inverse, nominal);
    let counted = builder.max(u32::MAX - 1, role, leaf);
    let choice = builder.or(&[leaf, nominal, counted]);
    builder.axiom(Axiom::SubClassOf(leaf, head));
    builder.axiom(Axiom::SubClassOf(nominal, choice));
    builder.axiom(Axiom::DisjointUnion(class, vec![leaf, nominal]));
    builder.axiom(Axiom::Inverse(0, role));
    builder.axiom(Axiom::Chain(inverse, vec![role, inverse]));
    builder.axiom(Axiom::ClassAssertion(counted, individual));
    if builder.rng.chance(1, 2) {
        let deepest = deepest(builder, leaf);
        builder.axiom(Axiom::SubClassOf(leaf, deepest));
    }
    let lines = builder.len() + builder.rng.between(2, 20);
    builder.random_concepts(lines, &EVEN);
    let axioms = builder.rng.between(1, 10);
    builder.random_axioms(axioms, &EVEN);
}

/// A concept of depth 64 around the leaf.
fn deepest(builder: &mut Builder, leaf: u32) -> u32 {
    let mut concept = leaf;
    while builder.depth(concept) < DEPTH {
        let role = builder.role();
        concept = if builder.rng.chance(1, 2) {
            builder.some(role, concept)
        } else {
            builder.all(role, concept)
        };
    }
    concept
}

/// 1,024 concepts, or one or two fewer.
fn most_concepts(builder: &mut Builder) {
    let classes = builder.rng.between(1_000, 1_400);
    builder.declare(classes, 3, 5);
    let missing = builder.rng.below(3);
    let lines = u32::try_from(CONCEPTS).expect("1,024") - missing;
    let taste = Taste {
        concepts: [1, 1, 60, 2, 2, 4, 1, 1, 8, 6, 3, 3],
        ..EVEN
    };
    builder.random_concepts(lines, &taste);
    let axioms = builder.rng.between(0, 12);
    builder.random_axioms(axioms, &taste);
}

/// 1,024 axioms, or one or two fewer.
fn most_axioms(builder: &mut Builder) {
    if builder.len() == 0 {
        builder.declare(4, 1, 3);
        builder.random_concepts(8, &EVEN);
    }
    let missing = builder.rng.index(3);
    let taste = Taste {
        axioms: [1, 0, 0, 0, 1, 1, 0, 40, 20, 20, 1, 4, 8, 1, 8, 4],
        list: 2,
        ..EVEN
    };
    while builder.deck().axioms.len() < AXIOMS - missing {
        let axiom = builder.random_axiom(&taste);
        if !builder.axiom(axiom) {
            break;
        }
    }
}

/// Every kind of list with 128 members.
fn full_lists(builder: &mut Builder) {
    builder.declare(140, 0, 3);
    let leaves: Vec<u32> = (0..140).map(|class| builder.atomic(class)).collect();
    let first = builder.and(&leaves[..LIST]);
    let second = builder.or(&leaves[140 - LIST..]);
    let concepts = leaves[..LIST].to_vec();
    let roles: Vec<u32> = (0..LIST).map(|_| builder.role()).collect();
    let kinds = [
        Axiom::SubClassOf(first, second),
        Axiom::SubClassOf(second, first),
        Axiom::EquivalentClasses(concepts.clone()),
        Axiom::DisjointClasses(concepts.clone()),
        Axiom::DisjointUnion(0, concepts),
        Axiom::Chain(0, roles.clone()),
        Axiom::DisjointRoles(roles.clone()),
        Axiom::EquivalentRoles(roles),
    ];
    for axiom in kinds {
        if builder.rng.chance(1, 2) {
            builder.axiom(axiom);
        }
    }
}

/// 65,536 bytes, or one or two fewer.
fn most_bytes(builder: &mut Builder) {
    let classes = builder.rng.between(20, 200);
    builder.declare(classes, 2, 4);
    let taste = Taste { list: 8, ..EVEN };
    let lines = builder.rng.between(20, 200);
    builder.random_concepts(lines, &taste);
    let axioms = builder.rng.between(1, 20);
    builder.random_axioms(axioms, &taste);
    for _ in 0..builder.rng.between(0, 500) {
        let class = builder.class();
        builder.key(class);
    }
    let spare = builder.rng.index(3);
    fill(builder, spare);
}

/// Adds lists of roles, which make no clause, until only `spare` bytes are free.
fn fill(builder: &mut Builder, spare: usize) {
    for length in lists_of_bytes(builder.room() - spare) {
        let role = builder.role();
        builder.axiom(Axiom::EquivalentRoles(vec![role; length]));
    }
}

pub fn empty(builder: &mut Builder) {
    match builder.rng.below(5) {
        0 => {}
        1 => any_names(builder),
        2 => {
            any_names(builder);
            for _ in 0..builder.rng.below(5) {
                let axiom = empty_list(builder);
                builder.axiom(axiom);
            }
        }
        3 => {
            let lines = builder.rng.between(1, 6);
            builder.random_concepts(lines, &EVEN);
            let axioms = builder.rng.below(4);
            builder.random_axioms(axioms, &EVEN);
        }
        _ => {
            builder.declare(2, 0, 0);
            for _ in 0..builder.rng.between(1, 3) {
                let class = builder.class();
                builder.key(class);
            }
        }
    }
}

fn any_names(builder: &mut Builder) {
    let [classes, individuals, roles] = [(); 3].map(|()| *builder.rng.pick(&[0, 1, 2]));
    builder.declare(classes, individuals, roles);
}

/// An axiom with an empty list.
fn empty_list(builder: &mut Builder) -> Axiom {
    let none = Vec::new();
    match builder.rng.below(6) {
        0 => Axiom::EquivalentClasses(none),
        1 => Axiom::DisjointClasses(none),
        2 if builder.deck().classes > 0 => Axiom::DisjointUnion(builder.class(), none),
        3 if builder.deck().roles > 0 => Axiom::Chain(builder.role(), none),
        4 => Axiom::DisjointRoles(none),
        _ => Axiom::EquivalentRoles(none),
    }
}
