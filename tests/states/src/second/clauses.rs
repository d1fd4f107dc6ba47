//! Whether a clause holds at an assignment, from its atoms' records, and the least at which it does not.

use oracle::Clause;

use crate::second::least::least;
use crate::second::world::World;

/// An atom's record: kind, role code, class id + 1, number, two variables.
pub type Atom = [u32; 6];

/// Its variables; a lone one comes first.
#[must_use]
pub fn atom_variables(atom: &Atom) -> &[u32] {
    match atom[0] {
        2 | 6 => &atom[4..6],
        _ => &atom[4..5],
    }
}

/// The distinct variables of a clause, rising.
#[must_use]
pub fn variables(clause: &Clause) -> Vec<u32> {
    let atoms = clause.body.iter().chain(&clause.head);
    let mut variables: Vec<u32> = atoms.flat_map(atom_variables).copied().collect();
    variables.sort_unstable();
    variables.dedup();
    variables
}

/// The least assignment that breaks a clause.
#[must_use]
pub fn broken(world: &World, clause: &Clause) -> Option<Vec<u32>> {
    let variables = variables(clause);
    least(world.size, variables.len(), |elements| {
        let of = |variable: u32| {
            let place = variables.binary_search(&variable);
            elements[place.expect("a variable of the clause")]
        };
        let is_true = |atom: &Atom| is_true(world, atom, of);
        !clause.body.iter().all(is_true) || clause.head.iter().any(is_true)
    })
}

/// Whether an atom holds where each variable stands for an element.
fn is_true(world: &World, atom: &Atom, of: impl Fn(u32) -> u32) -> bool {
    let [kind, role, class, number, first, second] = *atom;
    // Class 0 on kinds 4 and 5 is Top.
    let led_into = || {
        let led = world.led_to(role, of(first));
        led.filter(|&y| class == 0 || world.is_in(class - 1, y))
            .count()
    };
    match kind {
        1 => world.is_in(class - 1, of(first)),
        2 => world.is_related(role, of(first), of(second)),
        3 => led_into() > 0,
        4 => led_into() <= number as usize,
        5 => led_into() >= number as usize,
        6 => of(first) == of(second),
        _ => panic!("an atom of kind {kind}"),
    }
}
