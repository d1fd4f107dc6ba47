//! Decks that fill the clause, atom or deferral table to its end, the lister's or the greatest that may be lent.

use super::builder::Builder;
use crate::Axiom;
use crate::limits::LIST;

const CLASSES: u32 = 140;

pub fn tables(builder: &mut Builder) {
    builder.declare(CLASSES, 0, 2);
    match builder.rng.below(6) {
        0 => lister_clauses(builder),
        1 => {
            let total = around(builder, 2_048);
            atoms(builder, total);
        }
        2 => {
            let total = around(builder, 256);
            deferrals(builder, total);
        }
        3 => most_clauses(builder),
        4 => most_atoms(builder),
        _ => most_deferrals(builder),
    }
    builder.shuffle_axioms();
}

/// The number, or one or two more or less.
fn around(builder: &mut Builder, number: u32) -> u32 {
    builder.rng.between(number - 2, number + 2)
}

/// 1,024 clauses with fewer than 2,048 atoms: Top under an And of two classes gives two of one atom each.
fn lister_clauses(builder: &mut Builder) {
    let total = around(builder, 1_024);
    let twos = builder.rng.between(2, 40);
    let top = builder.top();
    for _ in 0..twos {
        let classes = [builder.any_atomic(), builder.any_atomic()];
        let both = builder.and(&classes);
        if classes[0] == classes[1] {
            builder.axiom(Axiom::SubClassOf(top, both));
        }
        builder.axiom(Axiom::SubClassOf(top, both));
    }
    for _ in 0..total - 2 * twos {
        let role = builder.role();
        builder.axiom(Axiom::Irreflexive(role));
    }
}

/// Clauses of three, two and one atoms, so many atoms in all.
fn atoms(builder: &mut Builder, total: u32) {
    let threes = total / 4;
    let twos = (total - 3 * threes) / 3;
    let ones = total - 3 * threes - 2 * twos;
    for _ in 0..threes {
        let role = builder.role();
        builder.axiom(Axiom::Transitive(role));
    }
    for _ in 0..twos {
        let (sub, sup) = (builder.any_atomic(), builder.any_atomic());
        builder.axiom(Axiom::SubClassOf(sub, sup));
    }
    for _ in 0..ones {
        let role = builder.role();
        builder.axiom(Axiom::Irreflexive(role));
    }
}

/// Chains that are not of two parts, a deferral each.
fn deferrals(builder: &mut Builder, total: u32) {
    for _ in 0..total {
        let length = *builder.rng.pick(&[0, 1, 3]);
        let parts = (0..length).map(|_| builder.role()).collect();
        let sup = builder.role();
        builder.axiom(Axiom::Chain(sup, parts));
    }
}

/// 65,536 clauses: 128 equivalent classes give 128 × 127.
fn most_clauses(builder: &mut Builder) {
    let singles = around(builder, 65_536 - 4 * 128 * 127);
    for _ in 0..4 {
        let mut classes: Vec<u32> = (0..CLASSES).map(|class| builder.atomic(class)).collect();
        builder.rng.shuffle(&mut classes);
        classes.truncate(LIST);
        builder.axiom(Axiom::EquivalentClasses(classes));
    }
    for _ in 0..singles {
        let role = builder.role();
        builder.axiom(Axiom::Irreflexive(role));
    }
}

/// 262,144 atoms: 128 disjoint Ands of 8 classes give 64 × 127 clauses of 16 atoms.
fn most_atoms(builder: &mut Builder) {
    let singles = around(builder, 262_144 - 2 * 64 * 127 * 16);
    for _ in 0..2 {
        let wholes = (0..LIST).map(|_| and_of_eight(builder)).collect();
        builder.axiom(Axiom::DisjointClasses(wholes));
    }
    atoms(builder, singles);
}

fn and_of_eight(builder: &mut Builder) -> u32 {
    let start = builder.rng.below(CLASSES - 8);
    let members: Vec<u32> = (start..start + 8)
        .map(|class| builder.atomic(class))
        .collect();
    builder.and(&members)
}

/// 65,536 deferrals: 128 disjoint hard concepts give 64 × 127.
fn most_deferrals(builder: &mut Builder) {
    let singles = around(builder, 65_536 - 8 * 64 * 127);
    for _ in 0..8 {
        let (role, class) = (builder.role(), builder.any_atomic());
        let hard = builder.all(role, class);
        builder.axiom(Axiom::DisjointClasses(vec![hard; LIST]));
    }
    deferrals(builder, singles);
}
