//! Antecedents with many alternatives, and axioms with long lists.

use super::builder::Builder;
use super::draw::EVEN;
use crate::Axiom;
use crate::limits::LIST;

pub fn disjunctive(builder: &mut Builder) {
    let classes = builder.rng.between(66, 130);
    let individuals = builder.rng.below(2);
    let roles = builder.rng.between(1, 3);
    builder.declare(classes, individuals, roles);
    for _ in 0..builder.rng.between(1, 4) {
        let sub = antecedent(builder);
        let class = builder.any_atomic();
        let axiom = match builder.rng.below(9) {
            0 => Axiom::EquivalentClasses(vec![sub, class]),
            1 => Axiom::DisjointClasses(vec![sub, class, sub]),
            2 => Axiom::DisjointUnion(builder.class(), vec![class, sub]),
            3 => Axiom::SubClassOf(sub, antecedent(builder)),
            _ => Axiom::SubClassOf(sub, head(builder)),
        };
        builder.axiom(axiom);
    }
}

/// An antecedent around 64 alternatives, or with a hard part, or both.
fn antecedent(builder: &mut Builder) -> u32 {
    let role = builder.role();
    match builder.rng.below(9) {
        0 => {
            let width = or_width(builder);
            or_of(builder, width)
        }
        1 | 2 => product(builder),
        3 => {
            let width = or_width(builder);
            let choice = or_of(builder, width);
            builder.some(role, choice)
        }
        4 => sum_of_products(builder),
        5 | 6 => {
            let parts = [product(builder), hard(builder), builder.any_atomic()];
            soft_and_hard(builder, parts)
        }
        7 => {
            let parts = [hard(builder), hard(builder)];
            if builder.rng.chance(1, 2) {
                builder.and(&parts)
            } else {
                builder.or(&parts)
            }
        }
        _ => {
            let inner = hard(builder);
            let class = builder.any_atomic();
            let below = builder.some(role, inner);
            builder.and(&[class, below])
        }
    }
}

fn head(builder: &mut Builder) -> u32 {
    let (class, other) = (builder.any_atomic(), builder.any_atomic());
    let role = builder.role();
    match builder.rng.below(6) {
        0 => builder.or(&[class, other]),
        1 => builder.and(&[class, other]),
        2 => builder.some(role, class),
        3 => builder.all(role, class),
        4 => builder.bot(),
        _ => class,
    }
}

fn or_width(builder: &mut Builder) -> u32 {
    let few = builder.rng.between(2, 6);
    *builder.rng.pick(&[63, 64, 64, 65, 65, 66, few])
}

/// The Or of so many classes, from any one on.
pub fn or_of(builder: &mut Builder, width: u32) -> u32 {
    let start = builder.class();
    let classes = builder.deck().classes;
    let members: Vec<u32> = (start..start + width)
        .map(|class| builder.atomic(class % classes))
        .collect();
    builder.or(&members)
}

/// An And of Ors whose widths multiply to about 64.
fn product(builder: &mut Builder) -> u32 {
    let widths: [&[u32]; 11] = [
        &[8, 8],
        &[8, 8],
        &[8, 9],
        &[9, 9],
        &[16, 4],
        &[13, 5],
        &[32, 2],
        &[33, 2],
        &[4, 4, 4],
        &[4, 4, 5],
        &[2, 2, 2, 2, 2, 2],
    ];
    let factors: Vec<u32> = builder
        .rng
        .pick(&widths)
        .iter()
        .map(|&width| or_of(builder, width))
        .collect();
    builder.and(&factors)
}

/// An Or of Ands of Ors.
fn sum_of_products(builder: &mut Builder) -> u32 {
    let terms = *builder.rng.pick(&[2, 4, 7, 8, 9]);
    let members: Vec<u32> = (0..terms)
        .map(|_| {
            let choice = or_of(builder, 8);
            let role = builder.role();
            let class = builder.any_atomic();
            let below = builder.some(role, class);
            builder.and(&[choice, below])
        })
        .collect();
    builder.or(&members)
}

/// A concept that cannot become body atoms.
fn hard(builder: &mut Builder) -> u32 {
    let role = builder.role();
    let class = builder.any_atomic();
    match builder.rng.below(6) {
        0 => builder.all(role, class),
        1 => builder.not(class),
        2 | 3 => builder.cardinality(role, class),
        4 => builder.self_restriction(role),
        _ => {
            let both = builder.any_atomic();
            let choice = builder.or(&[class, both]);
            builder.all(role, choice)
        }
    }
}

/// One And of soft and hard parts; a part that is an And lends its members.
fn soft_and_hard(builder: &mut Builder, parts: [u32; 3]) -> u32 {
    let [product, hard, class] = parts;
    let mut members = builder.get(product).parts().to_vec();
    members.push(hard);
    if builder.rng.chance(1, 2) {
        members.push(class);
    }
    builder.and(&members)
}

pub fn lists(builder: &mut Builder) {
    let many = builder.rng.between(100, 140);
    let few = builder.rng.between(1, 12);
    let classes = *builder.rng.pick(&[few, few, many]);
    let individuals = builder.rng.below(3);
    let roles = *builder.rng.pick(&[1, 3, 70]);
    builder.declare(classes, individuals, roles);
    for _ in 0..builder.rng.between(1, 5) {
        let axiom = list_axiom(builder);
        builder.axiom(axiom);
    }
}

fn list_axiom(builder: &mut Builder) -> Axiom {
    let length = list_length(builder);
    match builder.rng.below(10) {
        0 | 1 => Axiom::EquivalentClasses(concepts(builder, length)),
        2 | 3 => Axiom::DisjointClasses(concepts(builder, length)),
        4..=6 => Axiom::DisjointUnion(builder.class(), concepts(builder, length)),
        7 => Axiom::DisjointRoles(roles(builder, length)),
        8 => Axiom::EquivalentRoles(roles(builder, length)),
        _ => Axiom::Chain(builder.role(), roles(builder, length)),
    }
}

fn list_length(builder: &mut Builder) -> usize {
    let some = builder.rng.between(4, 20) as usize;
    let many = builder.rng.between(21, 127) as usize;
    *builder
        .rng
        .pick(&[0, 1, 2, 3, some, some, some, many, LIST])
}

/// Classes, and at times another concept among them.
fn concepts(builder: &mut Builder, length: usize) -> Vec<u32> {
    let compounds = *builder.rng.pick(&[0, 0, 1, 4]);
    (0..length)
        .map(|_| {
            let class = builder.any_atomic();
            if builder.rng.chance(compounds, 8) {
                builder.random_concept(&EVEN)
            } else {
                class
            }
        })
        .collect()
}

fn roles(builder: &mut Builder, length: usize) -> Vec<u32> {
    (0..length).map(|_| builder.role()).collect()
}
