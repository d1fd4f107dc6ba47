//! Decks around the limits of the run: the pool's concepts and members, and the atoms of a body or head.

use super::builder::Builder;
use crate::Axiom;
use crate::limits::LIST;

/// What the pool holds.
pub const POOL_CONCEPTS: u32 = 2_048;
const POOL_MEMBERS: u32 = 16_384;

pub fn pool_full(builder: &mut Builder) {
    match builder.rng.below(6) {
        0 | 1 => many_concepts(builder),
        2 => last_concepts(builder),
        3 => last_members(builder),
        4 => flattening_lists(builder),
        _ => long_lists(builder),
    }
}

/// Chains over a negated Some: each line has a normal form and a complement that are both new, so about 3 × lines
/// concepts come together, 2,048 of them from 683 lines.
fn many_concepts(builder: &mut Builder) {
    builder.declare(64, 1, 2);
    let depth = builder.rng.between(20, 58);
    let lines = builder.rng.between(620, 740);
    let mut ends = Vec::new();
    for class in 0..64 {
        if builder.len() >= lines {
            break;
        }
        ends.push(tall_chain(builder, class, depth, lines));
    }
    let by_absorption = builder.rng.chance(1, 2);
    for end in ends {
        let axiom = if by_absorption {
            // The complement is made when the hard antecedent is absorbed.
            Axiom::SubClassOf(end, builder.atomic(0))
        } else {
            Axiom::SubClassOf(end, builder.not(end))
        };
        builder.axiom(axiom);
    }
}

/// 2,048 concepts, or one more or less.
fn last_concepts(builder: &mut Builder) {
    builder.declare(1_000, 1, 2);
    let (chains, pool) = complemented_chains(builder);
    let classes = builder.rng.between(POOL_CONCEPTS - 1, POOL_CONCEPTS + 1) - pool;
    for class in chains..chains + classes {
        builder.atomic(class);
    }
}

/// Ten or eleven chains in axioms with their complements: how many, and the concepts that their lines and normal forms
/// bring.
pub fn complemented_chains(builder: &mut Builder) -> (u32, u32) {
    let before = builder.len();
    let chains = builder.rng.between(10, 11);
    for class in 0..chains {
        let end = tall_chain(builder, class, 60, 1_024);
        let complement = builder.not(end);
        let axiom = if builder.rng.chance(1, 2) {
            Axiom::SubClassOf(end, complement)
        } else {
            Axiom::EquivalentClasses(vec![complement, end])
        };
        builder.axiom(axiom);
    }
    // Of a chain's lines, the class, the Some and the two negations have no complement that is new; the negated Some's
    // normal form comes with the negated class.
    let lines = builder.len() - before;
    (chains, lines + 2 * chains + 2 * (lines - 4 * chains))
}

/// 16,384 list members, or one more or less: an Or of 128 and its complement, Ands that flatten it, and one plain And.
fn last_members(builder: &mut Builder) {
    builder.declare(128, 1, 1);
    let leaves: Vec<u32> = (0..128).map(|class| builder.atomic(class)).collect();
    let choice = builder.or(&leaves);
    let none = builder.not(choice);
    let as_heads = builder.rng.chance(1, 2);
    let flattening = 123;
    for &leaf in leaves.iter().take(flattening as usize) {
        let whole = builder.and(&[leaf, none]);
        let axiom = if as_heads {
            Axiom::SubClassOf(leaf, whole)
        } else {
            Axiom::ClassAssertion(whole, 0)
        };
        builder.axiom(axiom);
    }
    let members = 2 * 128 + (2 + 129) * flattening;
    let plain = builder.rng.between(POOL_MEMBERS - 1, POOL_MEMBERS + 1) - members;
    builder.and(&leaves[..plain as usize]);
    builder.shuffle_axioms();
}

fn tall_chain(builder: &mut Builder, class: u32, depth: u32, lines: u32) -> u32 {
    let leaf = builder.atomic(class);
    let witness = builder.some(0, leaf);
    let mut concept = builder.not(witness);
    while builder.depth(concept) < depth && builder.len() < lines {
        let role = builder.role();
        concept = if builder.rng.chance(1, 2) {
            builder.some(role, concept)
        } else {
            builder.all(role, concept)
        };
    }
    // An All on top makes every chain a hard antecedent.
    builder.all(0, concept)
}

/// Ands of negated Ors: their normal forms are Ands as long as the Ors together.
fn flattening_lists(builder: &mut Builder) {
    let classes = builder.rng.between(300, 420);
    builder.declare(classes, 0, 1);
    let ors = builder.rng.between(6, 16);
    let negated: Vec<u32> = (0..ors)
        .map(|_| {
            let members = distinct_atomics(builder, LIST);
            let choice = builder.or(&members);
            builder.not(choice)
        })
        .collect();
    for tag in 0..builder.rng.between(25, 55) {
        let mut members = negated.clone();
        builder.rng.shuffle(&mut members);
        members.truncate(1 + builder.rng.index(negated.len()));
        members.push(builder.atomic(tag));
        let whole = builder.and(&members);
        let class = builder.any_atomic();
        let axiom = match builder.rng.below(4) {
            0 => Axiom::SubClassOf(class, builder.not(whole)),
            1 => Axiom::SubClassOf(whole, class),
            _ => Axiom::SubClassOf(class, whole),
        };
        builder.axiom(axiom);
    }
}

/// Lists of double negations: line, normal form and complement are three lists, 128 members each.
fn long_lists(builder: &mut Builder) {
    builder.declare(170, 0, 1);
    let twice: Vec<u32> = (0..160)
        .map(|class| {
            let leaf = builder.atomic(class);
            let once = builder.not(leaf);
            builder.not(once)
        })
        .collect();
    let mut lists = Vec::new();
    for _ in 0..builder.rng.between(33, 40) {
        let mut members = twice.clone();
        builder.rng.shuffle(&mut members);
        members.truncate(LIST);
        let as_and = builder.rng.chance(1, 2);
        let list = if as_and {
            builder.and(&members)
        } else {
            builder.or(&members)
        };
        lists.push(list);
    }
    let class = builder.atomic(0);
    for list in lists {
        builder.axiom(Axiom::SubClassOf(list, class));
        let complement = builder.not(list);
        builder.axiom(Axiom::SubClassOf(class, complement));
    }
}

/// Different classes, in any order.
fn distinct_atomics(builder: &mut Builder, count: usize) -> Vec<u32> {
    let mut classes: Vec<u32> = (0..builder.deck().classes).collect();
    builder.rng.shuffle(&mut classes);
    classes.truncate(count);
    classes.iter().map(|&class| builder.atomic(class)).collect()
}

pub fn body_long(builder: &mut Builder) {
    let classes = builder.rng.between(300, 330);
    let roles = builder.rng.between(1, 2);
    builder.declare(classes, 0, roles);
    for _ in 0..builder.rng.between(1, 2) {
        let axiom = match builder.rng.below(7) {
            0 | 1 => Axiom::SubClassOf(long_antecedent(builder), long_body_head(builder)),
            2 => long_pair(builder),
            3 => Axiom::SubClassOf(flattened_and(builder), long_body_head(builder)),
            4 => Axiom::SubClassOf(builder.any_atomic(), flattened_or(builder)),
            5 => absorbed_long_head(builder),
            _ => long_path(builder),
        };
        builder.axiom(axiom);
    }
}

/// An And of up to 128 Somes with two or three atoms each, 256 in all or nearly.
fn long_antecedent(builder: &mut Builder) -> u32 {
    let (atoms, count) = if builder.rng.chance(1, 2) {
        (2, builder.rng.between(125, 128))
    } else {
        (3, builder.rng.between(84, 86))
    };
    let mut members: Vec<u32> = (0..count)
        .map(|class| some_of_atoms(builder, class, atoms))
        .collect();
    for class in 0..builder.rng.below(4) {
        members.insert(0, builder.atomic(299 - class));
    }
    builder.and(&members)
}

/// A Some that makes two body atoms, or three.
fn some_of_atoms(builder: &mut Builder, class: u32, atoms: u32) -> u32 {
    let role = builder.named_role();
    let leaf = builder.atomic(class);
    if atoms == 2 {
        return builder.some(role, leaf);
    }
    let other = builder.atomic(class + 1);
    let both = builder.and(&[leaf, other]);
    builder.some(role, both)
}

/// A head that leaves the body, or pushes another atom or more onto it.
fn long_body_head(builder: &mut Builder) -> u32 {
    let role = builder.role();
    let class = builder.any_atomic();
    match builder.rng.below(6) {
        0 => builder.all(role, class),
        1 => builder.not(class),
        2 => {
            let below = builder.all(role, class);
            builder.all(role, below)
        }
        3 => builder.some(role, class),
        4 => builder.bot(),
        _ => class,
    }
}

/// Two bodies that are joined for a disjoint pair or a union's pair.
fn long_pair(builder: &mut Builder) -> Axiom {
    let sides = [(); 2].map(|()| {
        let classes = builder.rng.between(120, 128) as usize;
        let mut members = distinct_atomics(builder, classes);
        if builder.rng.chance(1, 2) {
            let (role, class) = (builder.role(), builder.any_atomic());
            members.pop();
            members.push(builder.some(role, class));
        }
        builder.and(&members)
    });
    if builder.rng.chance(1, 2) {
        Axiom::DisjointClasses(sides.to_vec())
    } else {
        Axiom::DisjointUnion(builder.class(), sides.to_vec())
    }
}

/// An And whose normal form has around 256 members, from negated Ors of negations.
fn flattened_and(builder: &mut Builder) -> u32 {
    let total = builder.rng.between(254, 258);
    let thirds = [(0, 126), (126, 252), (252, total)];
    let members = thirds.map(|(from, to)| {
        let negated: Vec<u32> = (from..to)
            .map(|class| {
                let leaf = builder.atomic(class);
                builder.not(leaf)
            })
            .collect();
        let choice = builder.or(&negated);
        builder.not(choice)
    });
    builder.and(&members)
}

/// An Or whose normal form has around 256 disjuncts, from negated Ands.
fn flattened_or(builder: &mut Builder) -> u32 {
    let total = builder.rng.between(254, 258);
    let negations = builder.rng.chance(1, 2);
    let thirds = [(0, 100), (100, 200), (200, total)];
    let members = thirds.map(|(from, to)| {
        let conjuncts: Vec<u32> = (from..to)
            .map(|class| {
                let leaf = builder.atomic(class);
                if negations { builder.not(leaf) } else { leaf }
            })
            .collect();
        let whole = builder.and(&conjuncts);
        builder.not(whole)
    });
    builder.or(&members)
}

/// Hard conjuncts and a consequent that meet in one disjunction of around 256.
fn absorbed_long_head(builder: &mut Builder) -> Axiom {
    let hards = builder.rng.between(125, 127);
    let mut conjuncts: Vec<u32> = (0..hards)
        .map(|class| {
            let leaf = builder.atomic(class);
            builder.not(leaf)
        })
        .collect();
    conjuncts.push(builder.atomic(299));
    let sub = builder.and(&conjuncts);
    let disjuncts: Vec<u32> = (128..256).map(|class| builder.atomic(class)).collect();
    let long = builder.or(&disjuncts);
    // Two more than the 128 of a line, by a negated And.
    let extra = [256, 257].map(|class| builder.atomic(class));
    let both = builder.and(&extra);
    let neither = builder.not(both);
    let sup = if builder.rng.chance(1, 3) {
        long
    } else {
        let hidden = builder.not(long);
        let shown = builder.not(hidden);
        builder.or(&[shown, neither])
    };
    Axiom::SubClassOf(sub, sup)
}

/// A body of nearly 256 atoms that Alls in the head lengthen one by one.
fn long_path(builder: &mut Builder) -> Axiom {
    let members: Vec<u32> = (0..builder.rng.between(98, 104))
        .map(|class| some_of_atoms(builder, class, 2))
        .collect();
    let sub = builder.and(&members);
    let mut sup = builder.any_atomic();
    for _ in 0..builder.rng.between(48, 60) {
        let role = builder.role();
        sup = builder.all(role, sup);
    }
    Axiom::SubClassOf(sub, sup)
}

/// A body of 254 to 256 atoms under an at-most over a reflexive role, so that a counted loop lengthens it by one.
pub fn counted_body_long(builder: &mut Builder) {
    builder.declare(300, 0, 2);
    let somes = builder.rng.between(127, 128);
    let mut members: Vec<u32> = (0..somes)
        .map(|class| {
            let leaf = builder.atomic(class);
            builder.some(0, leaf)
        })
        .collect();
    if somes == 127 && builder.rng.chance(1, 2) {
        members.push(builder.atomic(299));
    }
    let sub = builder.and(&members);
    let (n, class) = (builder.at_most(), builder.any_atomic());
    let sup = builder.max(n, 2, class);
    builder.axiom(Axiom::SubClassOf(sub, sup));
    builder.axiom(Axiom::Reflexive(2));
}
