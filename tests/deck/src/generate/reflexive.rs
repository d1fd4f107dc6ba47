//! Reflexive roles: closures, antecedents to unfold, counted loops, and the cap on derived clauses.

use super::builder::Builder;
use super::draw::{EVEN, Taste};
use crate::Axiom;

pub fn reflexive(builder: &mut Builder) {
    if builder.rng.chance(1, 32) {
        around_the_cap(builder);
    } else {
        below_the_cap(builder);
    }
}

/// Reflexive roles that mostly unfold into few clauses.
pub fn below_the_cap(builder: &mut Builder) {
    let classes = builder.rng.between(2, 5);
    let individuals = builder.rng.below(2);
    let roles = builder.rng.between(1, 5);
    builder.declare(classes, individuals, roles);
    closure(builder);
    for _ in 0..builder.rng.between(1, 4) {
        let axiom = unfolded(builder);
        builder.axiom(axiom);
    }
    let axioms = builder.rng.below(5);
    builder.random_axioms(axioms, &role_taste());
    if builder.rng.chance(1, 2) {
        builder.shuffle_axioms();
    }
}

/// Mostly role axioms.
fn role_taste() -> Taste {
    Taste {
        axioms: [1, 0, 1, 0, 2, 3, 4, 4, 2, 3, 4, 1, 2, 2, 2, 1],
        ..EVEN
    }
}

/// Reflexive roles, and what carries reflexivity to others.
fn closure(builder: &mut Builder) {
    for _ in 0..builder.rng.between(1, 2) {
        let role = builder.role();
        builder.axiom(Axiom::Reflexive(role));
    }
    for _ in 0..builder.rng.below(5) {
        let (sub, sup) = (builder.role(), builder.role());
        builder.axiom(Axiom::RoleInclusion(sub, sup));
    }
    for _ in 0..builder.rng.below(3) {
        let count = builder.rng.between(1, 3);
        let list = (0..count).map(|_| builder.role()).collect();
        builder.axiom(Axiom::EquivalentRoles(list));
    }
    if builder.rng.chance(1, 3) {
        let (first, second) = (builder.named_role(), builder.named_role());
        builder.axiom(Axiom::Inverse(first, second));
    }
}

/// An axiom whose clauses have role atoms in the body.
pub fn unfolded(builder: &mut Builder) -> Axiom {
    let role = builder.role();
    match builder.rng.below(8) {
        0 => Axiom::Domain(role, head(builder)),
        1 => Axiom::Range(role, head(builder)),
        2 => {
            let (first, second) = (antecedent(builder, 2), antecedent(builder, 1));
            Axiom::DisjointClasses(vec![first, second])
        }
        3 => Axiom::SubClassOf(builder.any_atomic(), head(builder)),
        _ => {
            let width = *builder.rng.pick(&[1, 2, 2, 3, 3, 4, 5, 6]);
            Axiom::SubClassOf(antecedent(builder, width), head(builder))
        }
    }
}

/// Somes over classes and over further Somes, `width` of them side by side.
fn antecedent(builder: &mut Builder, width: u32) -> u32 {
    let mut members = Vec::new();
    if builder.rng.chance(1, 2) {
        members.push(builder.any_atomic());
    }
    for _ in 0..width {
        let (role, inner_role) = (builder.role(), builder.role());
        let class = builder.any_atomic();
        let filler = match builder.rng.below(6) {
            0 => builder.top(),
            1 => builder.some(inner_role, class),
            2 => {
                let inner = builder.some(inner_role, class);
                let other = builder.any_atomic();
                builder.and(&[other, inner])
            }
            3 => {
                let other = builder.any_atomic();
                builder.or(&[class, other])
            }
            _ => class,
        };
        members.push(builder.some(role, filler));
    }
    builder.and(&members)
}

/// A consequent: at-most for counted loops, All for heads below X, loops, disjunctions.
fn head(builder: &mut Builder) -> u32 {
    let role = builder.role();
    let class = builder.any_atomic();
    match builder.rng.below(12) {
        0 => builder.bot(),
        1 => builder.self_restriction(role),
        2 => {
            let loops = builder.self_restriction(role);
            builder.not(loops)
        }
        3 | 4 => at_most(builder),
        5 => {
            let counted = at_most(builder);
            builder.all(role, counted)
        }
        6 => {
            let counted = [at_most(builder), at_most(builder), class];
            builder.or(&counted)
        }
        7 => builder.all(role, class),
        8 => {
            let inner_role = builder.role();
            let inner = builder.all(inner_role, class);
            builder.all(role, inner)
        }
        9 => builder.some(role, class),
        10 => builder.not(class),
        _ => class,
    }
}

fn at_most(builder: &mut Builder) -> u32 {
    let (n, role) = (builder.at_most(), builder.role());
    let filler = if builder.rng.chance(1, 4) {
        builder.top()
    } else {
        builder.any_atomic()
    };
    builder.max(n, role, filler)
}

fn around_the_cap(builder: &mut Builder) {
    let width = *builder.rng.pick(&[11, 12, 12, 12, 13]);
    let ranges = builder.rng.below(4);
    unfolding(builder, width, ranges);
}

/// An antecedent of `width` different Somes over one reflexive role unfolds into 2^width - 1 clauses: 4,095 for 12, and
/// each range adds one.
pub fn unfolding(builder: &mut Builder, width: u32, ranges: u32) {
    builder.declare(20, 0, 2);
    let members: Vec<u32> = (1..=width)
        .map(|class| {
            let filler = builder.atomic(class);
            builder.some(0, filler)
        })
        .collect();
    let sub = builder.and(&members);
    let sup = builder.atomic(0);
    builder.axiom(Axiom::SubClassOf(sub, sup));
    for class in 0..ranges {
        let range = builder.atomic(14 + class);
        builder.axiom(Axiom::Range(0, range));
    }
    if builder.rng.chance(1, 2) {
        let counted = at_most(builder);
        builder.axiom(Axiom::SubClassOf(sup, counted));
    }
    builder.axiom(Axiom::Reflexive(0));
    if builder.rng.chance(1, 2) {
        builder.shuffle_axioms();
    }
}
