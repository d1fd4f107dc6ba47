//! What a state says of classes, roles and individuals: sets and relations as sorted lists.

use std::collections::BTreeMap;

use deck::Deck;

use crate::second::state::State;

#[derive(Clone, Debug)]
pub struct World {
    pub size: u32,
    /// By class id: declared, an individual's, fresh. One that is missing is empty.
    pub classes: BTreeMap<u32, Vec<u32>>,
    /// By role code, inverse ones too. One that is missing is empty.
    pub pairs: BTreeMap<u32, Vec<[u32; 2]>>,
    pub individuals: Vec<u32>,
}

impl World {
    #[must_use]
    pub fn new(deck: &Deck, state: &State) -> Self {
        let mut classes = state.classes.clone();
        for (class, &element) in (deck.classes..).zip(&state.individuals) {
            classes.insert(class, vec![element]);
        }
        let mut pairs = BTreeMap::new();
        for (&role, named) in &state.roles {
            let mut turned: Vec<[u32; 2]> = named.iter().map(|&[x, y]| [y, x]).collect();
            turned.sort_unstable();
            pairs.insert(2 * role, named.clone());
            pairs.insert(2 * role + 1, turned);
        }
        Self {
            size: state.size,
            classes,
            pairs,
            individuals: state.individuals.clone(),
        }
    }

    /// The elements of a class.
    #[must_use]
    pub fn class(&self, class: u32) -> &[u32] {
        self.classes.get(&class).map_or(&[], Vec::as_slice)
    }

    #[must_use]
    pub fn is_in(&self, class: u32, element: u32) -> bool {
        holds(self.class(class), element)
    }

    /// The pairs of a role's code.
    #[must_use]
    pub fn pairs(&self, code: u32) -> &[[u32; 2]] {
        self.pairs.get(&code).map_or(&[], Vec::as_slice)
    }

    #[must_use]
    pub fn is_related(&self, code: u32, first: u32, second: u32) -> bool {
        self.pairs(code).binary_search(&[first, second]).is_ok()
    }

    /// The elements that a role's code leads to from one, rising.
    pub fn led_to(&self, code: u32, from: u32) -> impl Iterator<Item = u32> {
        let pairs = self.pairs(code);
        let start = pairs.partition_point(|pair| pair[0] < from);
        let of_it = pairs[start..]
            .iter()
            .take_while(move |pair| pair[0] == from);
        of_it.map(|pair| pair[1])
    }

    pub fn elements(&self) -> impl Iterator<Item = u32> + use<> {
        0..self.size
    }
}

/// Whether a sorted list has an element.
#[must_use]
pub fn holds(list: &[u32], element: u32) -> bool {
    list.binary_search(&element).is_ok()
}
