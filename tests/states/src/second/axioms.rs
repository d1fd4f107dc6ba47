//! Whether an axiom holds at an assignment, by OWL 2 Direct Semantics, and the least at which it does not.

use deck::Axiom;

use crate::second::chain::least_path;
use crate::second::least::least;
use crate::second::world::{World, holds};

/// A longer chain goes by [`least_path`].
const NESTED: u32 = 100_000;

/// The elements that the standard's condition speaks of.
#[must_use]
pub fn variables(axiom: &Axiom) -> usize {
    match axiom {
        Axiom::SubClassOf(..)
        | Axiom::EquivalentClasses(_)
        | Axiom::DisjointClasses(_)
        | Axiom::DisjointUnion(..)
        | Axiom::Irreflexive(_)
        | Axiom::Reflexive(_) => 1,
        Axiom::Domain(..)
        | Axiom::Range(..)
        | Axiom::Asymmetric(_)
        | Axiom::DisjointRoles(_)
        | Axiom::Inverse(..)
        | Axiom::RoleInclusion(..)
        | Axiom::EquivalentRoles(_) => 2,
        Axiom::Transitive(_) => 3,
        Axiom::Chain(_, parts) => parts.len() + 1,
        Axiom::ClassAssertion(..) => 0,
    }
}

/// A line's kind.
#[must_use]
pub fn kind(axiom: &Axiom) -> u32 {
    deck::write::axiom_row(axiom)[0]
}

/// The least assignment that breaks an axiom, given the elements of each concept.
#[must_use]
pub fn broken(world: &World, extents: &[Vec<u32>], axiom: &Axiom) -> Option<Vec<u32>> {
    let count = variables(axiom);
    if let Axiom::Chain(sup, parts) = axiom {
        let assignments = u32::try_from(count)
            .ok()
            .and_then(|count| world.size.checked_pow(count));
        if assignments.is_none_or(|assignments| assignments > NESTED) {
            return least_path(world, *sup, parts);
        }
    }
    least(world.size, count, |assignment| {
        holds_at(world, extents, axiom, assignment)
    })
}

/// How many members of a list have it; each place counts.
fn having(list: &[u32], has: impl Fn(u32) -> bool) -> usize {
    list.iter().filter(|&&member| has(member)).count()
}

/// Of y0 .. yn: where each part leads from one to the next, `sup` leads from the first to the last.
pub(super) fn chain_holds_at(world: &World, sup: u32, parts: &[u32], at: &[u32]) -> bool {
    let mut steps = parts.iter().zip(at.windows(2));
    !steps.all(|(&part, step)| world.is_related(part, step[0], step[1]))
        || world.is_related(sup, at[0], at[parts.len()])
}

/// The condition at an assignment.
fn holds_at(world: &World, extents: &[Vec<u32>], axiom: &Axiom, at: &[u32]) -> bool {
    let is_in = |concept: u32, x: u32| holds(&extents[concept as usize], x);
    let related = |role: u32, x: u32, y: u32| world.is_related(role, x, y);
    let members = |list: &[u32]| having(list, |member| is_in(member, at[0]));
    let roles = |list: &[u32]| having(list, |role| related(role, at[0], at[1]));
    match *axiom {
        Axiom::SubClassOf(sub, sup) => !is_in(sub, at[0]) || is_in(sup, at[0]),
        Axiom::EquivalentClasses(ref list) => [0, list.len()].contains(&members(list)),
        Axiom::DisjointClasses(ref list) => members(list) <= 1,
        Axiom::DisjointUnion(class, ref list) => {
            members(list) == usize::from(world.is_in(class, at[0]))
        }
        Axiom::Domain(role, concept) => !related(role, at[0], at[1]) || is_in(concept, at[0]),
        Axiom::Range(role, concept) => !related(role, at[0], at[1]) || is_in(concept, at[1]),
        Axiom::Chain(sup, ref parts) => chain_holds_at(world, sup, parts, at),
        Axiom::Transitive(role) => {
            !related(role, at[0], at[1])
                || !related(role, at[1], at[2])
                || related(role, at[0], at[2])
        }
        Axiom::Irreflexive(role) => !related(role, at[0], at[0]),
        Axiom::Asymmetric(role) => !related(role, at[0], at[1]) || !related(role, at[1], at[0]),
        Axiom::DisjointRoles(ref list) => {
            // Equal codes do not clash.
            let mut having = list.iter().filter(|&&role| related(role, at[0], at[1]));
            let first = having.next();
            having.all(|role| Some(role) == first)
        }
        Axiom::Inverse(first, second) => {
            related(first, at[0], at[1]) == related(second, at[1], at[0])
        }
        Axiom::RoleInclusion(sub, sup) => !related(sub, at[0], at[1]) || related(sup, at[0], at[1]),
        Axiom::EquivalentRoles(ref list) => [0, list.len()].contains(&roles(list)),
        Axiom::Reflexive(role) => related(role, at[0], at[0]),
        Axiom::ClassAssertion(concept, individual) => {
            is_in(concept, world.individuals[individual as usize])
        }
    }
}
