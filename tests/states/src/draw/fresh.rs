//! Sets for the fresh classes, nothing else changing, so that the clauses hold: from all elements or none, what breaks a clause is
//! changed, again and again.

use std::collections::BTreeMap;
use std::ops::Range;

use deck::random::Random;
use oracle::Clause;

use super::states::toggle;
use crate::second::clauses::{self, Atom};
use crate::second::world::World;

type Sets = BTreeMap<u32, Vec<u32>>;

/// Changes from one beginning.
const STEPS: usize = 150;
/// Clauses that are gone through at most, all together.
const LOOKS: usize = 20_000;

/// Sets for the fresh classes, and whether every clause holds with them.
pub fn choose(rng: &mut Random, world: &World, all: &[Clause], fresh: Range<u32>) -> (bool, Sets) {
    let (own, others): (Vec<&Clause>, Vec<&Clause>) =
        all.iter().partition(|clause| names(clause, &fresh));
    let mut looks = LOOKS;
    let hopeless = others
        .iter()
        .any(|clause| clauses::broken(world, clause).is_some());
    let mut sets = Sets::new();
    for begin_full in [true, false, true, false] {
        let mut changed = begin(world, &fresh, begin_full);
        let holds = walk(rng, &mut changed, &own, &fresh, begin_full, &mut looks);
        sets = fresh
            .clone()
            .map(|class| (class, changed.class(class).to_vec()))
            .collect();
        if hopeless || holds || looks == 0 {
            return (holds && !hopeless, sets);
        }
    }
    (false, sets)
}

/// Whether a clause names a fresh class.
fn names(clause: &Clause, fresh: &Range<u32>) -> bool {
    let mut atoms = clause.body.iter().chain(&clause.head);
    atoms.any(|atom| is_fresh(atom, fresh))
}

fn is_fresh(atom: &Atom, fresh: &Range<u32>) -> bool {
    atom[2] > 0 && fresh.contains(&(atom[2] - 1))
}

fn begin(world: &World, fresh: &Range<u32>, full: bool) -> World {
    let mut world = world.clone();
    for class in fresh.clone() {
        let elements = world.elements().filter(|_| full).collect();
        world.classes.insert(class, elements);
    }
    world
}

/// Changes the fresh classes until no clause is broken, and tells whether none is.
fn walk(
    rng: &mut Random,
    world: &mut World,
    own: &[&Clause],
    fresh: &Range<u32>,
    began_full: bool,
    looks: &mut usize,
) -> bool {
    let mut place = 0;
    let mut held = 0;
    let mut steps = 0;
    while held < own.len() {
        if steps == STEPS || *looks == 0 {
            return false;
        }
        *looks -= 1;
        let clause = own[place % own.len()];
        let Some(elements) = clauses::broken(world, clause) else {
            held += 1;
            place += 1;
            continue;
        };
        let mut changes = changes(world, clause, &elements, fresh);
        // From all elements some are taken away, to none some are added, mostly.
        let is_onward = |&(class, element): &Change| world.is_in(class, element) == began_full;
        if changes.iter().any(is_onward) && !rng.chance(1, 10) {
            changes.retain(is_onward);
        }
        if changes.is_empty() {
            return false;
        }
        let (class, element) = *rng.pick(&changes);
        toggle(world.classes.entry(class).or_default(), element);
        held = 0;
        steps += 1;
    }
    true
}

/// A fresh class, and the element that it gains or loses.
type Change = (u32, u32);

/// What can be changed where a clause is broken.
fn changes(world: &World, clause: &Clause, elements: &[u32], fresh: &Range<u32>) -> Vec<Change> {
    let variables = clauses::variables(clause);
    let of = |variable: u32| elements[variables.binary_search(&variable).expect("its own")];
    let mut changes = Vec::new();
    for atom in clause.body.iter().chain(&clause.head) {
        if !is_fresh(atom, fresh) {
            continue;
        }
        let [kind, role, class, _, variable, _] = *atom;
        let class = class - 1;
        if kind == 1 {
            changes.push((class, of(variable)));
            continue;
        }
        let led = world.led_to(role, of(variable));
        let led = led.filter(|&y| world.is_in(class, y) == (kind == 4));
        changes.extend(led.map(|y| (class, y)));
    }
    changes
}
