//! At-most restrictions over compound fillers, which get names; option 4 puts each filler below its name too.

use super::builder::Builder;
use super::draw::{EVEN, Taste};
use super::full::{POOL_CONCEPTS, complemented_chains};
use super::lists::or_of;
use crate::Axiom;

/// Heads with such restrictions in every place, mostly with option 4.
pub fn at_most(builder: &mut Builder) {
    if builder.rng.chance(5, 6) {
        set_option_4(builder);
    }
    match builder.rng.weighted(&[20, 6, 2, 1, 1]) {
        0 => small(builder),
        1 => deferred(builder),
        2 => chain_of_limits(builder),
        3 => many_uses(builder),
        _ => wide_fillers(builder),
    }
}

fn set_option_4(builder: &mut Builder) {
    let options = builder.deck().options | 4;
    builder.set_options(options);
}

/// Compounds, a Max oftener than others.
const FILLERS: Taste = Taste {
    concepts: [1, 1, 6, 1, 2, 4, 5, 5, 3, 3, 3, 6],
    ..EVEN
};

/// What the later passes and the inverse map look at.
const ROLES: Taste = Taste {
    axioms: [1, 0, 0, 0, 1, 1, 1, 1, 0, 0, 0, 4, 2, 1, 4, 1],
    ..EVEN
};

fn small(builder: &mut Builder) {
    let classes = builder.rng.between(2, 5);
    let individuals = builder.rng.below(3);
    let roles = builder.rng.between(1, 3);
    builder.declare(classes, individuals, roles);
    if builder.rng.chance(1, 4) {
        let class = builder.class();
        builder.key(class);
    }
    let count = builder.rng.between(1, 3);
    let fillers: Vec<u32> = (0..count).map(|_| filler(builder)).collect();
    for _ in 0..builder.rng.between(1, 3) {
        let axiom = axiom_over(builder, &fillers);
        builder.axiom(axiom);
    }
    if builder.rng.chance(1, 2) {
        let axioms = builder.rng.between(1, 3);
        builder.random_axioms(axioms, &ROLES);
        builder.shuffle_axioms();
    }
}

/// A compound of each kind: easy as an antecedent, hard, both, or with another at-most in it.
fn filler(builder: &mut Builder) -> u32 {
    let (class, other) = (builder.any_atomic(), builder.any_atomic());
    let role = builder.role();
    match builder.rng.below(14) {
        0 | 1 => builder.and(&[class, other]),
        2 => builder.or(&[class, other]),
        3 => builder.some(role, class),
        4 => builder.all(role, class),
        5 => builder.not(class),
        6 => {
            let loops = builder.self_restriction(role);
            if builder.rng.chance(1, 2) {
                builder.not(loops)
            } else {
                loops
            }
        }
        7 => {
            let inner = compound(builder);
            let n = builder.at_least();
            builder.min(n, role, inner)
        }
        8 | 9 => {
            let inner = compound(builder);
            limit(builder, inner)
        }
        10 => {
            let inner = compound(builder);
            let counted = limit(builder, inner);
            builder.and(&[class, counted])
        }
        11 => builder.bot(),
        _ => compound(builder),
    }
}

fn compound(builder: &mut Builder) -> u32 {
    let levels = builder.rng.between(1, 3);
    builder.tree(levels, &FILLERS)
}

/// A Max over the filler.
fn limit(builder: &mut Builder, filler: u32) -> u32 {
    let (n, role) = (builder.at_most(), builder.role());
    builder.max(n, role, filler)
}

/// The kinds of axiom that have a head.
fn axiom_over(builder: &mut Builder, fillers: &[u32]) -> Axiom {
    let sup = head(builder, fillers);
    let class = builder.any_atomic();
    match builder.rng.below(12) {
        0 | 1 => {
            let mut list = vec![class, sup];
            if builder.rng.chance(1, 2) {
                list.push(head(builder, fillers));
            }
            if builder.rng.chance(1, 4) {
                list.push(*builder.rng.pick(fillers));
            }
            builder.rng.shuffle(&mut list);
            Axiom::EquivalentClasses(list)
        }
        2 => Axiom::Domain(builder.role(), sup),
        3 | 4 => Axiom::Range(builder.role(), sup),
        _ => Axiom::SubClassOf(antecedent(builder), sup),
    }
}

/// One body, several (each use of a filler has a name of its own), or none.
fn antecedent(builder: &mut Builder) -> u32 {
    let (class, other) = (builder.any_atomic(), builder.any_atomic());
    let role = builder.role();
    match builder.rng.below(8) {
        0 => builder.top(),
        1 | 2 => builder.or(&[class, other]),
        3 => builder.some(role, class),
        4 => {
            let hard = builder.all(role, other);
            builder.and(&[class, hard])
        }
        5 => builder.tree(2, &FILLERS),
        _ => class,
    }
}

/// An at-most over one of the fillers as the head itself, as a disjunct or conjunct, or below another concept.
fn head(builder: &mut Builder, fillers: &[u32]) -> u32 {
    let mut limits = [(); 2].map(|()| {
        let filler = *builder.rng.pick(fillers);
        limit(builder, filler)
    });
    if builder.rng.chance(1, 4) {
        // A Not over a Min is an at-most in normal form.
        let (filler, role) = (*builder.rng.pick(fillers), builder.role());
        let n = *builder.rng.pick(&[2, 3]);
        let least = builder.min(n, role, filler);
        limits[1] = builder.not(least);
    }
    let [first, second] = limits;
    let class = builder.any_atomic();
    let role = builder.role();
    match builder.rng.below(12) {
        0..=2 => first,
        3 => builder.and(&[first, second]),
        4 | 5 => builder.or(&[class, first]),
        6 => builder.or(&[first, second]),
        7 => builder.all(role, first),
        8 => builder.some(role, first),
        9 => {
            let n = builder.at_least();
            builder.min(n, role, first)
        }
        10 => limit(builder, first),
        _ => {
            let choice = builder.or(&[class, second]);
            builder.all(role, choice)
        }
    }
}

/// Fillers around 64 alternatives, some of them inside an at-most that is a filler itself.
fn deferred(builder: &mut Builder) {
    let classes = builder.rng.between(18, 40);
    let roles = builder.rng.between(1, 2);
    builder.declare(classes, 0, roles);
    for _ in 0..builder.rng.between(1, 2) {
        let mut fillers = vec![wide_choice(builder)];
        if builder.rng.chance(1, 2) {
            fillers.push(limit(builder, fillers[0]));
        }
        if builder.rng.chance(1, 2) {
            fillers.push(filler(builder));
        }
        let axiom = axiom_over(builder, &fillers);
        builder.axiom(axiom);
    }
}

/// An And of two Ors with 64 alternatives or more, at times with a hard part.
fn wide_choice(builder: &mut Builder) -> u32 {
    let mut members = [8, 9].map(|least| {
        let width = builder.rng.between(8, least);
        or_of(builder, width)
    });
    members.sort_unstable();
    let mut members = members.to_vec();
    if builder.rng.chance(1, 4) {
        let (role, class) = (builder.role(), builder.any_atomic());
        members.push(builder.all(role, class));
    }
    builder.and(&members)
}

/// At-most in at-most, up to the depth that a deck may have: each is a filler and, complemented, a Min over one.
fn chain_of_limits(builder: &mut Builder) {
    let classes = builder.rng.between(2, 3);
    builder.declare(classes, 0, 2);
    let (class, other) = (builder.any_atomic(), builder.any_atomic());
    let mut concept = builder.and(&[class, other]);
    for _ in 0..*builder.rng.pick(&[2, 3, 4, 6, 12, 40]) {
        concept = if builder.rng.chance(1, 6) {
            let (n, role) = (builder.at_least(), builder.role());
            builder.min(n, role, concept)
        } else {
            limit(builder, concept)
        };
    }
    let sup = if builder.rng.chance(1, 3) {
        builder.or(&[class, concept])
    } else {
        concept
    };
    builder.axiom(Axiom::SubClassOf(class, sup));
}

/// One filler under many heads of one axiom, so that many wait.
fn many_uses(builder: &mut Builder) {
    let classes = builder.rng.between(4, 20);
    let roles = builder.rng.between(2, 20);
    builder.declare(classes, 0, roles);
    let shared = filler(builder);
    let mut limits: Vec<u32> = (0..builder.rng.between(2, 30))
        .map(|_| limit(builder, shared))
        .collect();
    let class = builder.any_atomic();
    limits.push(class);
    let heads = if builder.rng.chance(1, 2) {
        builder.and(&limits)
    } else {
        builder.or(&limits)
    };
    let bodies: Vec<u32> = (0..classes).map(|class| builder.atomic(class)).collect();
    let sub = builder.or(&bodies);
    let axiom = if builder.rng.chance(1, 3) {
        Axiom::EquivalentClasses(vec![class, heads, sub])
    } else {
        Axiom::SubClassOf(sub, heads)
    };
    builder.axiom(axiom);
}

/// Fillers whose bodies have more than eight variables.
fn wide_fillers(builder: &mut Builder) {
    let classes = builder.rng.between(10, 14);
    builder.declare(classes, 0, 2);
    let somes: Vec<u32> = (0..builder.rng.between(7, 10))
        .map(|class| {
            let (role, leaf) = (builder.role(), builder.atomic(class));
            builder.some(role, leaf)
        })
        .collect();
    let wide = builder.and(&somes);
    let fillers = [wide, filler(builder)];
    for _ in 0..builder.rng.between(1, 2) {
        let axiom = axiom_over(builder, &fillers);
        builder.axiom(axiom);
    }
    let axioms = builder.rng.below(3);
    builder.random_axioms(axioms, &ROLES);
}

/// The pool ends at 2,048 concepts, or a few more or less, while names and complements of fillers join it.
pub fn last_names(builder: &mut Builder) {
    set_option_4(builder);
    builder.declare(1_000, 1, 2);
    match builder.rng.below(4) {
        0 => {
            let bodies = builder.rng.between(20, 64);
            let limits = (POOL_CONCEPTS - bodies) / (bodies + 1) - 1;
            crowd(builder, bodies, limits);
        }
        1 => {
            let limits = builder.rng.between(32, 64);
            crowd(builder, 64, limits);
        }
        _ => after_chains(builder),
    }
}

/// So many bodies under so many limits over one filler: the limits of all bodies wait together, at times more than the pool
/// may hold. Further lines fill the pool to its end, if they can.
fn crowd(builder: &mut Builder, bodies: u32, limits: u32) {
    let members: Vec<u32> = (0..bodies).map(|class| builder.atomic(class)).collect();
    let sub = builder.or(&members);
    let filler = builder.and(&members[..2]);
    let limits: Vec<u32> = (0..limits).map(|n| builder.max(n, 0, filler)).collect();
    let sup = builder.and(&limits);
    builder.axiom(Axiom::SubClassOf(sub, sup));
    let most = builder.rng.between(POOL_CONCEPTS - 1, POOL_CONCEPTS + 1);
    let taken = builder.len() + bodies * u32::try_from(limits.len()).expect("a list's");
    for class in bodies..bodies + most.saturating_sub(taken) {
        builder.atomic(class);
    }
}

/// Chains and their complements, then limits over fillers of several sorts.
fn after_chains(builder: &mut Builder) {
    let before = builder.len();
    let (chains, pool) = complemented_chains(builder);
    let own = builder.len();
    let mut made = 0;
    for place in 0..builder.rng.between(1, 6) {
        made += filler_and_its_concepts(builder, place);
    }
    // Lines so far, the chains' other concepts, and what settling makes.
    let most = builder
        .rng
        .between(POOL_CONCEPTS - 1, POOL_CONCEPTS + made.min(3));
    let taken = before + pool + (builder.len() - own) + made;
    for class in chains..chains + most.saturating_sub(taken) {
        builder.atomic(class);
    }
}

/// A limit over classes 900 and on, below a class, and how many concepts its other half makes.
fn filler_and_its_concepts(builder: &mut Builder, place: u32) -> u32 {
    let first = 900 + 4 * place;
    let [sub, class, other] = [0, 1, 2].map(|next| builder.atomic(first + next));
    let (filler, made) = match builder.rng.below(3) {
        // The name alone.
        0 => (builder.and(&[class, other]), 1),
        // Also Not, Some and the head.
        1 => (builder.all(0, class), 4),
        // Also Not and the head; the soft part is a line.
        _ => {
            let not = builder.not(other);
            (builder.and(&[class, not]), 2)
        }
    };
    let most = builder.max(place, 2, filler);
    builder.axiom(Axiom::SubClassOf(sub, most));
    made
}
