//! Antecedents with more than eight variables, for the naming of branches.

use super::builder::Builder;
use super::draw::{EVEN, Taste};
use crate::Axiom;

pub fn wide(builder: &mut Builder) {
    if builder.rng.chance(5, 6) {
        let others = builder.deck().options & 12;
        let options = *builder.rng.pick(&[1, 3]);
        builder.set_options(options + others);
    }
    let classes = builder.rng.between(4, 44);
    let individuals = builder.rng.below(2);
    let roles = builder.rng.between(1, 4);
    builder.declare(classes, individuals, roles);
    let count = builder.rng.between(1, 3);
    let antecedents: Vec<u32> = (0..count).map(|_| antecedent(builder)).collect();
    for _ in 0..builder.rng.between(1, 4) {
        let axiom = axiom_over(builder, &antecedents);
        builder.axiom(axiom);
    }
    let others = Taste {
        axioms: [1, 0, 1, 0, 1, 1, 1, 1, 0, 1, 1, 4, 1, 0, 1, 0],
        ..EVEN
    };
    if builder.rng.chance(1, 3) {
        let axioms = builder.rng.between(1, 3);
        builder.random_axioms(axioms, &others);
    }
}

fn axiom_over(builder: &mut Builder, antecedents: &[u32]) -> Axiom {
    let first = *builder.rng.pick(antecedents);
    let second = *builder.rng.pick(antecedents);
    match builder.rng.below(12) {
        // A pair of equals has each branch twice.
        0 => Axiom::DisjointClasses(vec![first, second]),
        1 => Axiom::DisjointUnion(builder.class(), vec![first, second]),
        2 => Axiom::EquivalentClasses(vec![first, builder.any_atomic()]),
        3 => {
            let path = path_of_alls(builder);
            Axiom::Range(builder.role(), path)
        }
        4 => {
            let both = builder.or(&[first, second]);
            Axiom::SubClassOf(both, head(builder))
        }
        _ => Axiom::SubClassOf(first, head(builder)),
    }
}

/// A head at X, below it, or none.
fn head(builder: &mut Builder) -> u32 {
    let (role, inner_role) = (builder.role(), builder.role());
    let class = builder.any_atomic();
    let below = builder.all(role, class);
    match builder.rng.below(14) {
        0 | 1 => below,
        2 => builder.all(inner_role, below),
        3 => builder.and(&[class, below]),
        4 => {
            let n = builder.at_most();
            builder.max(n, role, class)
        }
        5 => {
            let n = builder.at_most();
            let counted = builder.max(n, role, class);
            builder.all(inner_role, counted)
        }
        6 => {
            let witness = builder.some(role, class);
            let other = builder.any_atomic();
            builder.or(&[other, witness])
        }
        7 => builder.not(class),
        8 => {
            let loops = builder.self_restriction(role);
            let none = builder.not(loops);
            builder.all(inner_role, none)
        }
        9 => builder.bot(),
        10 => builder.self_restriction(role),
        11 => path_of_alls(builder),
        _ => class,
    }
}

/// A head at the end of a path, which must stay whole.
fn path_of_alls(builder: &mut Builder) -> u32 {
    let mut concept = builder.any_atomic();
    for _ in 0..builder.rng.between(2, 12) {
        let role = builder.role();
        concept = builder.all(role, concept);
    }
    concept
}

fn antecedent(builder: &mut Builder) -> u32 {
    match builder.rng.below(8) {
        0..=2 => {
            let branches = flat_width(builder);
            flat(builder, branches)
        }
        3 => {
            let levels = builder.rng.between(2, 4);
            tree(builder, levels)
        }
        4 => path_of_somes(builder),
        5 => {
            let branches = flat_width(builder);
            let whole = flat(builder, branches);
            let role = builder.role();
            builder.some(role, whole)
        }
        6 => with_choice(builder),
        _ => twin_branches(builder),
    }
}

/// Around seven branches, where the eighth variable is, or many.
fn flat_width(builder: &mut Builder) -> u32 {
    if builder.rng.chance(2, 3) {
        builder.rng.between(7, 9)
    } else {
        builder.rng.between(10, 40)
    }
}

/// Different Somes over classes, and at times a class, side by side.
fn flat(builder: &mut Builder, width: u32) -> u32 {
    let mut members = Vec::new();
    if builder.rng.chance(1, 3) {
        members.push(builder.any_atomic());
    }
    for _ in 0..3 * width {
        let (role, class) = (builder.role(), builder.any_atomic());
        let branch = builder.some(role, class);
        if !members.contains(&branch) {
            members.push(branch);
        }
        if members.len() == width as usize {
            break;
        }
    }
    builder.and(&members)
}

/// Somes that branch again below, down to classes.
fn tree(builder: &mut Builder, levels: u32) -> u32 {
    let class = builder.any_atomic();
    if levels == 0 {
        return class;
    }
    let mut members = Vec::new();
    if builder.rng.chance(1, 2) {
        members.push(class);
    }
    for _ in 0..builder.rng.between(2, 4) {
        let below = if builder.rng.chance(1, 4) {
            0
        } else {
            levels - 1
        };
        let filler = tree(builder, below);
        let role = builder.role();
        members.push(builder.some(role, filler));
    }
    builder.and(&members)
}

/// One Some below the other, nine variables and more.
fn path_of_somes(builder: &mut Builder) -> u32 {
    let mut concept = builder.any_atomic();
    for _ in 0..builder.rng.between(7, 24) {
        let role = builder.role();
        concept = builder.some(role, concept);
        if builder.rng.chance(1, 4) {
            let class = builder.any_atomic();
            concept = builder.and(&[class, concept]);
        }
    }
    concept
}

/// A wide And with an Or in it: clauses that share their branches.
fn with_choice(builder: &mut Builder) -> u32 {
    let branches = flat_width(builder);
    let whole = flat(builder, branches);
    let (first, second) = (builder.any_atomic(), builder.any_atomic());
    let choice = builder.or(&[first, second]);
    let role = builder.role();
    let below = builder.some(role, choice);
    let mut members = builder.get(whole).parts().to_vec();
    members.push(if builder.rng.chance(1, 2) {
        choice
    } else {
        below
    });
    builder.and(&members)
}

/// The same wide concept below different roles, next to a class or not.
fn twin_branches(builder: &mut Builder) -> u32 {
    let levels = builder.rng.between(1, 2);
    let twin = if builder.rng.chance(1, 2) {
        let branches = builder.rng.between(7, 10);
        flat(builder, branches)
    } else {
        tree(builder, levels)
    };
    let mut members = Vec::new();
    for _ in 0..builder.rng.between(2, 8) {
        let role = builder.role();
        let filler = if builder.rng.chance(1, 3) {
            let class = builder.any_atomic();
            let inner = builder.some(role, twin);
            builder.and(&[class, inner])
        } else {
            twin
        };
        let outer = builder.role();
        members.push(builder.some(outer, filler));
    }
    builder.and(&members)
}
