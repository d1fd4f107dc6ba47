//! Chains of inverse declarations; with option 8 a role is followed through all of them.

use super::builder::Builder;
use super::draw::{EVEN, Taste};
use super::reflexive::unfolded;
use crate::Axiom;

/// A chain or two, and roles of them wherever a role is canonicalised; mostly with option 8.
pub fn following(builder: &mut Builder) {
    let classes = builder.rng.between(2, 4);
    let individuals = builder.rng.below(2);
    let roles = builder.rng.between(3, 7);
    builder.declare(classes, individuals, roles);
    let lines = builder.rng.between(2, 10);
    builder.random_concepts(lines, &ROLES);
    if builder.rng.chance(1, 3) {
        let role = builder.role();
        builder.axiom(Axiom::Reflexive(role));
    }
    for _ in 0..builder.rng.between(1, 5) {
        let axiom = if builder.rng.chance(1, 4) {
            unfolded(builder)
        } else {
            builder.random_axiom(&ROLES)
        };
        builder.axiom(axiom);
    }
    chained(builder);
    if builder.rng.chance(1, 8) {
        let options = builder.deck().options & 7;
        builder.set_options(options);
    }
}

/// Restrictions, and every axiom over roles but declarations.
const ROLES: Taste = Taste {
    concepts: [1, 0, 4, 1, 4, 2, 3, 3, 7, 6, 4, 5],
    axioms: [9, 1, 1, 1, 3, 3, 4, 3, 2, 2, 4, 0, 4, 3, 2, 1],
    ..EVEN
};

/// Chains among the axioms so far, and option 8. There are three roles or more then.
pub fn chained(builder: &mut Builder) {
    let options = builder.deck().options | 8;
    builder.set_options(options);
    let least = builder.rng.between(3, 5);
    let (classes, individuals, roles) = {
        let deck = builder.deck();
        (deck.classes, deck.individuals, deck.roles)
    };
    builder.declare(classes, individuals, roles.max(least));
    let before = builder.deck().axioms.len();
    for _ in 0..*builder.rng.pick(&[1, 1, 1, 2]) {
        chain(builder);
    }
    let added = builder.deck().axioms.len() - before;
    builder.mingle_last_axioms(added);
    if builder.rng.chance(1, 8) {
        builder.shuffle_axioms();
    }
}

/// Declarations along a path of roles, mostly so that each makes an entry, which the ones behind it lead on.
fn chain(builder: &mut Builder) {
    let path = path(builder);
    let mut pairs: Vec<(u32, u32)> = path.windows(2).map(|two| (two[1], two[0])).collect();
    let place = builder.rng.index(pairs.len());
    match builder.rng.weighted(&[12, 2, 2, 3]) {
        0 => {}
        1 => pairs.reverse(),
        2 => builder.rng.shuffle(&mut pairs),
        _ => pairs[place] = (pairs[place].1, pairs[place].0),
    }
    for _ in 0..*builder.rng.pick(&[0, 0, 1, 1, 2]) {
        let place = builder.rng.index(pairs.len() + 1);
        let pair = other_pair(builder, &pairs);
        pairs.insert(place, pair);
    }
    for (first, second) in pairs {
        builder.axiom(Axiom::Inverse(first, second));
    }
}

/// Two to seven roles, three or more mostly.
fn path(builder: &mut Builder) -> Vec<u32> {
    let roles = builder.deck().roles;
    let mut path: Vec<u32> = (0..roles.min(64)).map(|role| 2 * role).collect();
    builder.rng.shuffle(&mut path);
    let length = *builder.rng.pick(&[2, 3, 3, 3, 4, 4, 5, 7]);
    path.truncate(length);
    path
}

/// A declaration that makes no entry mostly, or parts the chain.
fn other_pair(builder: &mut Builder, pairs: &[(u32, u32)]) -> (u32, u32) {
    let (first, second) = *builder.rng.pick(pairs);
    let (first, second) = (first & !1, second & !1);
    let other = builder.named_role();
    match builder.rng.below(8) {
        0 => (first, second),
        1 => (second, first),
        2 => (second, second),
        3 => (first + 1, second),
        4 => (first, second + 1),
        5 => (first + 1, second + 1),
        6 => (first, other),
        _ => (other, second),
    }
}
