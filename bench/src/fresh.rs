//! Sets for the fresh classes of a run, with which its clauses hold in a state that its axioms hold in.

use std::collections::BTreeSet;
use std::ops::Range;

use oracle::Clause;
use states::second::clauses::{self, Atom};
use states::second::state::State;
use states::second::world::World;

use crate::decks::Known;

/// Gives the state a line for each fresh class of the deck's run.
///
/// # Panics
/// If a clause stays broken.
pub fn choose(known: &Known, state: &mut State) {
    let names = Names::of(known);
    let mut world = World::new(&known.deck, state);
    for class in names.all.clone() {
        let elements = world.elements();
        let elements = elements.filter(|_| !names.conditions.contains(&class));
        let elements = elements.collect();
        world.classes.insert(class, elements);
    }
    let mut is_changed = true;
    while is_changed {
        is_changed = false;
        for clause in &known.listing.clauses {
            is_changed |= names.occur_in(clause) && names.mend(&mut world, clause);
        }
    }
    let lines = names.all.map(|class| (class, world.class(class).to_vec()));
    state.classes.extend(lines);
}

/// The fresh classes.
struct Names {
    all: Range<u32>,
    /// Those that stand alone in a head are names of conditions: they have what must be, and grow from nothing. The others have
    /// what may be, and shrink from everything.
    conditions: BTreeSet<u32>,
}

impl Names {
    fn of(known: &Known) -> Self {
        let first = known.deck.classes + known.deck.individuals;
        let mut names = Self {
            all: first..first + known.listing.fresh,
            conditions: BTreeSet::new(),
        };
        for clause in &known.listing.clauses {
            if let [atom] = &clause.head[..] {
                names.conditions.extend(names.class(atom));
            }
        }
        names
    }

    /// The fresh class that an atom says of its variable.
    fn class(&self, atom: &Atom) -> Option<u32> {
        let class = atom[2].checked_sub(1)?;
        (atom[0] == 1 && self.all.contains(&class)).then_some(class)
    }

    /// Whether a clause has such an atom.
    fn occur_in(&self, clause: &Clause) -> bool {
        let mut atoms = clause.body.iter().chain(&clause.head);
        atoms.any(|atom| self.class(atom).is_some())
    }

    /// Changes sets until a clause holds, and tells whether one was changed.
    fn mend(&self, world: &mut World, clause: &Clause) -> bool {
        let variables = clauses::variables(clause);
        let mut is_changed = false;
        while let Some(elements) = clauses::broken(world, clause) {
            let (class, variable) = self
                .to_change(clause)
                .unwrap_or_else(|| panic!("{clause:?} is broken"));
            let place = variables.binary_search(&variable).expect("its own");
            let element = elements[place];
            let set = world.classes.entry(class).or_default();
            match set.binary_search(&element) {
                Ok(place) => drop(set.remove(place)),
                Err(place) => set.insert(place, element),
            }
            is_changed = true;
        }
        is_changed
    }

    /// A class that can be changed where a clause is broken, and the variable whose element it gains or loses.
    fn to_change(&self, clause: &Clause) -> Option<(u32, u32)> {
        let named = |atom: &Atom| Some((self.class(atom)?, atom[4]));
        let is_condition = |class: &u32| self.conditions.contains(class);
        let mut heads = clause.head.iter().filter_map(named);
        let mut bodies = clause.body.iter().filter_map(named);
        heads
            .find(|(class, _)| is_condition(class))
            .or_else(|| bodies.find(|(class, _)| !is_condition(class)))
    }
}
