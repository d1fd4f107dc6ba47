//! Concepts that nest deep, and concepts that share their parts.

use super::builder::Builder;
use super::draw::EVEN;
use crate::limits::DEPTH;
use crate::{Axiom, Concept};

/// Kinds of concept line that lie around another concept, by habit of a chain.
const HABITS: [&[usize]; 9] = [
    &[6, 7, 8, 9, 10, 11, 12],
    &[6, 9, 10],
    &[6],
    &[9],
    &[10],
    &[7, 8],
    &[8, 9],
    &[8, 10],
    &[11, 12],
];

pub fn deep(builder: &mut Builder) {
    let classes = builder.rng.between(1, 4);
    let individuals = builder.rng.below(3);
    let roles = builder.rng.between(1, 3);
    builder.declare(classes, individuals, roles);
    let chains = builder.rng.between(1, 3);
    let ends: Vec<u32> = (0..chains).map(|_| chain(builder)).collect();
    for _ in 0..builder.rng.between(1, 5) {
        let end = *builder.rng.pick(&ends);
        let axiom = axiom_over(builder, end);
        builder.axiom(axiom);
    }
}

/// A concept of depth up to 64, one around the other.
fn chain(builder: &mut Builder) -> u32 {
    let any_depth = builder.rng.between(3, DEPTH);
    let depth = *builder
        .rng
        .pick(&[DEPTH, DEPTH - 1, DEPTH - 2, any_depth, any_depth]);
    let any_habit = *builder.rng.pick(&HABITS);
    let habit = *builder.rng.pick(&[HABITS[0], HABITS[0], any_habit]);
    let mut concept = builder.any_atomic();
    while builder.depth(concept) < depth {
        let kind = *builder.rng.pick(habit);
        concept = around(builder, kind, concept);
    }
    concept
}

/// A concept of the kind, one deeper than its part.
fn around(builder: &mut Builder, kind: usize, part: u32) -> u32 {
    let whole = match kind {
        7 | 8 => join(builder, kind, part),
        _ => builder.around(kind, part, &EVEN),
    };
    // A class joined with itself is no deeper.
    if whole == part {
        builder.not(part)
    } else {
        whole
    }
}

/// An And or Or with a class; an And never lies in an And, nor an Or in an Or.
fn join(builder: &mut Builder, kind: usize, part: u32) -> u32 {
    let class = builder.any_atomic();
    let as_and = match builder.get(part) {
        Concept::And(_) => false,
        Concept::Or(_) => true,
        _ => kind == 7,
    };
    if as_and {
        builder.and(&[class, part])
    } else {
        builder.or(&[class, part])
    }
}

/// An axiom with the concept on either side, under another, or in a list.
fn axiom_over(builder: &mut Builder, concept: u32) -> Axiom {
    let class = builder.any_atomic();
    let role = builder.role();
    match builder.rng.below(10) {
        0..=2 => Axiom::SubClassOf(class, concept),
        3 | 4 => Axiom::SubClassOf(concept, class),
        5 => Axiom::EquivalentClasses(vec![class, concept]),
        6 => Axiom::Range(role, concept),
        7 => Axiom::DisjointClasses(vec![concept, class]),
        8 => Axiom::SubClassOf(concept, concept),
        _ => builder.random_axiom(&EVEN),
    }
}

pub fn shared(builder: &mut Builder) {
    let classes = builder.rng.between(2, 3);
    let roles = builder.rng.between(1, 3);
    builder.declare(classes, 1, roles);
    if builder.rng.chance(1, 4) {
        builder.key(0);
    }
    match builder.rng.below(16) {
        0 | 1 => last_visits(builder),
        2 => late_visits(builder),
        3 => failing_antecedents(builder),
        _ => any_levels(builder),
    }
}

fn any_levels(builder: &mut Builder) {
    let levels = match builder.rng.weighted(&[12, 5, 3]) {
        0 => builder.rng.between(2, 8),
        1 => builder.rng.between(9, 14),
        _ => builder.rng.between(15, 19),
    };
    let habit = any_doubling(builder);
    let end = doubling(builder, levels, &habit);
    for _ in 0..builder.rng.between(1, 3) {
        let axiom = axiom_over(builder, end);
        builder.axiom(axiom);
    }
}

/// One million visits, or one or two more or less: two inclusions of four visits each, and assertions that only their
/// normal form visits.
fn last_visits(builder: &mut Builder) {
    let inclusion = Axiom::SubClassOf(builder.atomic(0), builder.atomic(1));
    let leaf = builder.atomic(0);
    let levels = doubled(builder, leaf);
    let visits = builder.rng.between(999_998, 1_000_002) - 8;
    builder.axiom(inclusion.clone());
    assert_levels(builder, &levels, visits);
    builder.axiom(inclusion);
    builder.shuffle_axioms();
}

/// Concepts over the leaf with two paths down from each level, and the visits that the normal form of each takes.
fn doubled(builder: &mut Builder, leaf: u32) -> Vec<(u32, u32)> {
    let (mut concept, mut size) = (leaf, 1);
    let mut levels = vec![(concept, size)];
    for _ in 0..17 {
        let paths = [builder.some(0, concept), builder.all(1, concept)];
        concept = builder.and(&paths);
        size = 2 * size + 3;
        levels.push((concept, size));
    }
    levels
}

/// Adds assertions of the levels that take so many visits together.
fn assert_levels(builder: &mut Builder, levels: &[(u32, u32)], visits: u32) {
    let mut rest = visits;
    for &(concept, size) in levels.iter().rev() {
        while size <= rest {
            rest -= size;
            builder.axiom(Axiom::ClassAssertion(concept, 0));
        }
    }
}

/// Adds assertions that take so many visits, behind the other axioms or before them, and otherwise only concept lines and the
/// names that these need.
pub fn pad(builder: &mut Builder, visits: u32) {
    let (classes, individuals, roles) = {
        let deck = builder.deck();
        (deck.classes, deck.individuals, deck.roles)
    };
    builder.declare(classes, individuals.max(1), roles.max(1));
    let leaf = builder.top();
    let levels = doubled(builder, leaf);
    let before = builder.deck().axioms.len();
    assert_levels(builder, &levels, visits);
    if builder.rng.chance(1, 2) {
        let added = builder.deck().axioms.len() - before;
        builder.last_axioms_first(added);
    }
}

/// Assertions use up most visits, so that the last of them falls to a head.
fn late_visits(builder: &mut Builder) {
    let levels = builder.rng.between(12, 14);
    let named = Doubling {
        kinds: &[9],
        join: Some(8),
    };
    let end = if builder.rng.chance(1, 2) {
        doubling(builder, levels, &named)
    } else {
        let habit = any_doubling(builder);
        doubling(builder, levels, &habit)
    };
    // About the visits that a normal form of the concept takes; a head takes up to half as many again.
    let size = 4 << levels;
    let inclusions = builder.rng.between(1, 2);
    let left = builder
        .rng
        .between(inclusions * size, inclusions * size * 5 / 2);
    for _ in 0..(1_000_000 - left) / size {
        builder.axiom(Axiom::ClassAssertion(end, 0));
    }
    let class = builder.any_atomic();
    for _ in 0..inclusions {
        builder.axiom(Axiom::SubClassOf(class, end));
    }
}

/// Pairs of antecedents that fail at their last part, each visited again for every pair.
fn failing_antecedents(builder: &mut Builder) {
    let mut members = Vec::new();
    for class in 0..builder.deck().classes {
        let mut concept = builder.atomic(class);
        for _ in 0..builder.rng.between(1, 12) {
            let role = builder.role();
            concept = builder.some(role, concept);
            members.push(concept);
        }
    }
    let class = builder.any_atomic();
    members.push(builder.all(0, class));
    let whole = builder.and(&members);
    let length = builder.rng.between(2, 128) as usize;
    for _ in 0..builder.rng.between(1, 3) {
        builder.axiom(Axiom::DisjointClasses(vec![whole; length]));
    }
}

/// How a level is built on the one below.
struct Doubling {
    /// The kinds of the two concepts around it.
    kinds: &'static [usize],
    /// The kind that joins the two, or any.
    join: Option<u32>,
}

fn any_doubling(builder: &mut Builder) -> Doubling {
    const KINDS: [&[usize]; 5] = [&[9, 10, 11, 12, 6], &[10], &[9], &[9, 10], &[12, 10]];
    let kinds = builder.rng.pick(&KINDS);
    Doubling {
        kinds,
        join: *builder.rng.pick(&[None, None, Some(7), Some(8)]),
    }
}

/// A concept with two paths down from each level.
fn doubling(builder: &mut Builder, levels: u32, habit: &Doubling) -> u32 {
    // Under Top and data keys heads leave no clause, so visits pass the limit before the tables do.
    let mut concept = match builder.rng.below(4) {
        0 => builder.any_atomic(),
        1 => {
            let class = builder.any_atomic();
            builder.not(class)
        }
        _ => builder.top(),
    };
    for _ in 0..levels {
        let paths = two_paths(builder, habit.kinds, concept);
        let join = habit.join.unwrap_or_else(|| builder.rng.between(7, 8));
        concept = if join == 7 {
            builder.and(&paths)
        } else {
            builder.or(&paths)
        };
    }
    concept
}

/// Two concepts around one, different if chance allows it in a few draws.
fn two_paths(builder: &mut Builder, kinds: &[usize], part: u32) -> [u32; 2] {
    let [mut first, mut second] = [part; 2];
    for _ in 0..5 {
        if first != second {
            break;
        }
        [first, second] = [(); 2].map(|()| {
            let kind = *builder.rng.pick(kinds);
            around(builder, kind, part)
        });
    }
    [first, second]
}
