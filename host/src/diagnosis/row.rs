//! A line whose columns, kind and number of fields are right.

use super::kind::{Kind, Sort};
use super::layout::FIELD;

pub(super) struct Row {
    pub kind: &'static Kind,
    /// The line's numbers, its kind first.
    pub numbers: Vec<u32>,
}

/// A number after the kind: which one it is, from 0 at the kind, what it says, and its value.
#[derive(Clone, Copy)]
pub(super) struct Entry {
    pub index: usize,
    pub sort: Sort,
    pub value: u32,
}

impl Row {
    /// The numbers after the kind.
    pub fn entries(&self) -> impl Iterator<Item = Entry> {
        let fixed = self.kind.fields.iter().map(|&(_, sort)| sort);
        let sorts = fixed.chain(self.kind.list.into_iter().cycle());
        let values = self.numbers.iter().copied().enumerate().skip(1);
        values
            .zip(sorts)
            .map(|((index, value), sort)| Entry { index, sort, value })
    }

    /// The concepts that the line names.
    pub fn parts(&self) -> impl Iterator<Item = Entry> {
        self.entries().filter(|entry| entry.sort == Sort::Concept)
    }

    /// The rest of the line, behind the numbers that each line of the kind has.
    pub fn list(&self) -> &[u32] {
        &self.numbers[1 + self.kind.fields.len()..]
    }

    /// The byte at which a number begins, from 0.
    pub fn place(&self, index: usize) -> usize {
        place(&self.numbers, index)
    }
}

/// The byte at which one of a line's numbers begins, from 0; each ends with its columns.
pub(super) fn place(numbers: &[u32], index: usize) -> usize {
    let digits = numbers[index].checked_ilog10().unwrap_or(0) as usize + 1;
    FIELD * (index + 1) - digits
}
