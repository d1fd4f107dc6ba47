//! What is known of the lines before a line, and the checks of one.

use super::super::fault::Fault;
use super::super::layout;
use super::super::row::place;
use super::{Counts, NUMBER, elements, fault, ids};

const COUNT: u32 = 50;
const FIRST: &str = "the first line is 50 and the number of elements, 1 to 64";
/// The most elements.
const MOST: u32 = 64;

pub(super) struct Seen {
    counts: Counts,
    /// How many elements there are; none before the first line.
    size: Option<u32>,
    /// Kind and id of the line before.
    before: (u32, u32),
    /// The individuals that have their line, rising.
    individuals: Vec<u32>,
}

/// A state without a byte.
pub(super) fn empty() -> Fault {
    fault(format!("the state is empty; {FIRST}"))
}

impl Seen {
    pub fn new(counts: Counts) -> Self {
        Self {
            counts,
            size: None,
            before: (COUNT, 0),
            individuals: Vec::new(),
        }
    }

    /// Takes a line, which ends with its line feed if it has one, or tells what is wrong with it.
    pub fn enter(&mut self, text: &[u8]) -> Result<(), Fault> {
        let numbers = layout::numbers("state", text).map_err(|fault| fault.of_number(NUMBER))?;
        let Some(size) = self.size else {
            self.size = Some(size(&numbers)?);
            return Ok(());
        };
        let (kind, id) = self.follows(&numbers)?;
        ids::check(self.counts, &numbers)?;
        elements::check(size, &numbers)?;
        self.before = (kind, id);
        if kind == ids::INDIVIDUAL {
            self.individuals.push(id);
        }
        Ok(())
    }

    /// Kind and id of a line, if it may stand behind the one before.
    fn follows(&self, numbers: &[u32]) -> Result<(u32, u32), Fault> {
        let kind = numbers[0];
        if let Some(cause) = self.bad_kind(kind) {
            return Err(fault(cause).at(place(numbers, 0)));
        }
        let what = ids::what(kind);
        let Some(&id) = numbers.get(1) else {
            return Err(fault(format!(
                "kind {kind} without the {what} that it is of"
            )));
        };
        match self.before {
            (before, last) if before == kind && id <= last => {
                let cause = out_of_order(what, last, id);
                Err(fault(cause).at(place(numbers, 1)))
            }
            _ => Ok((kind, id)),
        }
    }

    fn bad_kind(&self, kind: u32) -> Option<String> {
        let (before, _) = self.before;
        if kind == COUNT {
            Some("a second line 50; a state has one, its first line".to_owned())
        } else if !(ids::CLASS..=ids::INDIVIDUAL).contains(&kind) {
            Some(format!(
                "there is no kind {kind} here; the kinds are 51 (class), 52 (role) and 53 (individual)"
            ))
        } else if kind < before {
            Some(format!(
                "kind {kind} after kind {before}; lines stand by kind"
            ))
        } else {
            None
        }
    }

    /// An individual without its line, where all lines are good.
    pub fn missing(&self) -> Option<Fault> {
        let has = |id: &u32| self.individuals.binary_search(id).is_ok();
        let mut all = 0..self.counts.individuals;
        let missing = all.find(|id| !has(id))?;
        Some(fault(format!(
            "individual {missing} has no line 53; each individual has one"
        )))
    }
}

/// A line of an id behind that of one as large.
fn out_of_order(what: &str, last: u32, id: u32) -> String {
    if id == last {
        format!("a second line of {what} {id}; each has one at most")
    } else {
        format!("{what} {id} after {what} {last}; lines of a kind stand by id")
    }
}

/// The number of elements that the first line tells.
fn size(numbers: &[u32]) -> Result<u32, Fault> {
    match numbers {
        [COUNT, size @ 1..=MOST] => Ok(*size),
        [COUNT, size] => {
            let cause = format!("{size} elements; a state has 1 to {MOST}");
            Err(fault(cause).at(place(numbers, 1)))
        }
        [COUNT] => Err(fault("the number of elements is missing behind 50")),
        [COUNT, ..] => Err(fault("a line 50 has one number behind it").at(place(numbers, 2))),
        [kind, ..] => Err(fault(format!("kind {kind}; {FIRST}")).at(place(numbers, 0))),
        [] => Err(empty()),
    }
}
