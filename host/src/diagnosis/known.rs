//! What is known of the lines before a line, and the checks in their order.

use std::collections::HashMap;

use super::fault::Fault;
use super::kind::{Kind, Section};
use super::row::Row;
use super::{layout, limits, members, names, nesting, shape};

/// What later lines need of a concept line.
pub(super) struct Concept {
    pub kind: &'static Kind,
    pub line: u32,
    pub depth: u32,
}

#[derive(Default)]
pub(super) struct Known {
    /// The section of the line before and the first line of that section; none at the deck's first line.
    section: Option<(Section, u32)>,
    /// Classes, individuals and roles, as the header counts them.
    pub counts: [u32; 3],
    pub concepts: Vec<Concept>,
    pub axioms: usize,
    /// The concept of each concept line, by the line's numbers.
    seen: HashMap<Vec<u32>, u32>,
}

impl Known {
    pub fn section(&self) -> Option<Section> {
        self.section.map(|(section, _)| section)
    }

    /// The first line of the section of the line before.
    pub fn first_line(&self) -> u32 {
        self.section.map_or(1, |(_, line)| line)
    }

    /// How many concepts there are so far.
    pub fn concept_count(&self) -> u32 {
        u32::try_from(self.concepts.len()).expect("a deck has at most 1,024 concepts")
    }

    /// An earlier concept.
    pub fn concept(&self, number: u32) -> &Concept {
        &self.concepts[number as usize]
    }

    /// Takes a line, which ends with its line feed if it has one, or tells what is wrong with it.
    pub fn enter(&mut self, line: u32, text: &[u8]) -> Result<(), Fault> {
        let row = shape::row(self, layout::numbers("deck", text)?)?;
        limits::check(self, &row)?;
        names::check(self, &row)?;
        if self.section() != Some(row.kind.section) {
            self.section = Some((row.kind.section, line));
        }
        match row.kind.section {
            Section::Header => self.counts.copy_from_slice(&row.numbers[1..4]),
            Section::Keys => {}
            Section::Concepts => self.enter_concept(line, row)?,
            Section::Axioms => self.axioms += 1,
        }
        Ok(())
    }

    fn enter_concept(&mut self, line: u32, row: Row) -> Result<(), Fault> {
        nesting::check(self, &row)?;
        members::check(self, &row)?;
        self.repeated(&row)?;
        bound(&row)?;
        let depth = nesting::depth(self, &row);
        self.seen.insert(row.numbers, self.concept_count());
        let kind = row.kind;
        self.concepts.push(Concept { kind, line, depth });
        Ok(())
    }

    /// Refusal 8: an earlier concept line with the same numbers.
    fn repeated(&self, row: &Row) -> Result<(), Fault> {
        let Some(&earlier) = self.seen.get(&row.numbers) else {
            return Ok(());
        };
        let line = self.concept(earlier).line;
        let cause = format!("repeats line {line}; use its concept, {earlier}");
        Err(Fault::new(8, cause))
    }
}

/// Refusal 9: the bound of a Max.
fn bound(row: &Row) -> Result<(), Fault> {
    if row.kind.number != Kind::MAX || row.numbers[1] < u32::MAX {
        return Ok(());
    }
    let most = u32::MAX - 1;
    let cause = format!("a Max with the bound {}; {most} is the largest", u32::MAX);
    Err(Fault::new(9, cause).at(row.place(1)))
}
