//! What is wrong with a state that is refused (refusal 13), as far as it can be told.
//!
//! Nothing here is proved, and nothing is shared with the proved reader: where the diagnosis has another line than the library,
//! the library's is right.

mod elements;
mod ids;
mod seen;
#[cfg(test)]
mod tests;

use super::Diagnosis;
use super::fault::Fault;
use seen::Seen;

/// The refusal of a state.
const NUMBER: u32 = 13;

/// How many names an accepted deck has, and how many classes its run has added.
#[derive(Clone, Copy, Debug, Default, PartialEq, Eq)]
pub struct Counts {
    /// Declared classes.
    pub classes: u32,
    /// Declared individuals.
    pub individuals: u32,
    /// Declared roles.
    pub roles: u32,
    /// Fresh classes.
    pub fresh: u32,
}

/// The first bad line of a state, and why; none where the state is laid out well. Unproved: the library's line is the answer.
#[must_use]
pub fn diagnose(counts: Counts, state: &[u8]) -> Option<Diagnosis> {
    if state.is_empty() {
        return Some(seen::empty().on(1));
    }
    let mut seen = Seen::new(counts);
    let mut lines = (1..).zip(state.split_inclusive(|&byte| byte == b'\n'));
    let bad = lines.find_map(|(line, text)| seen.enter(text).err().map(|fault| fault.on(line)));
    bad.or_else(|| seen.missing().map(|fault| fault.on(0)))
}

fn fault(cause: impl Into<String>) -> Fault {
    Fault::new(NUMBER, cause)
}
