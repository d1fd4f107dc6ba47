//! A state of the layout: its data and its text.

use std::collections::BTreeMap;

use deck::write::row;

/// The most elements of a state.
pub const ELEMENTS: u32 = 64;

/// The lines of a state. What has no line is empty; every individual has one.
#[derive(Clone, Debug, Default, PartialEq, Eq)]
pub struct State {
    /// The elements are the numbers below it.
    pub size: u32,
    /// By class id, the elements rising.
    pub classes: BTreeMap<u32, Vec<u32>>,
    /// By role id, the pairs rising.
    pub roles: BTreeMap<u32, Vec<[u32; 2]>>,
    pub individuals: Vec<u32>,
}

impl State {
    /// The numbers of its lines.
    #[must_use]
    pub fn rows(&self) -> Vec<Vec<u32>> {
        let count = vec![50, self.size];
        let classes = self.classes.iter();
        let classes = classes.map(|(&class, elements)| [&[51, class], &elements[..]].concat());
        let roles = self.roles.iter();
        let roles = roles.map(|(&role, pairs)| [&[52, role], pairs.as_flattened()].concat());
        let individuals = (0..).zip(&self.individuals);
        let individuals = individuals.map(|(individual, &element)| vec![53, individual, element]);
        let first = std::iter::once(count);
        first
            .chain(classes)
            .chain(roles)
            .chain(individuals)
            .collect()
    }

    #[must_use]
    pub fn write(&self) -> Vec<u8> {
        text(&self.rows())
    }
}

/// Lines of numbers in their columns.
#[must_use]
pub fn text(rows: &[Vec<u32>]) -> Vec<u8> {
    let mut out = Vec::new();
    for numbers in rows {
        row(&mut out, numbers);
    }
    out
}
