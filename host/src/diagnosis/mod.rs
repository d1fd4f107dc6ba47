//! What is wrong with a deck that the line checks refuse (refusals 2 to 9), as far as it can be told; [`state`] has the same of
//! a state (refusal 13), and [`session`] of what a session is asked for (refusals 2 to 5 and 15).
//!
//! Nothing here is proved. The answer is the library's number and line; a diagnosis only helps to find the cause. Where it
//! has another number or line than the library, or there is none, the library's words are all there is to say. Tests hold
//! both to be the same on stored, generated and damaged decks.

mod fault;
mod kind;
mod known;
mod layout;
mod limits;
mod members;
mod names;
mod nesting;
mod row;
pub mod session;
mod shape;
pub mod state;
#[cfg(test)]
mod tests;

use std::fmt;

use known::Known;

/// What is wrong with a deck or a state that the line checks refuse, or with a change of a session's deck. Unproved: the
/// library's number and line are the answer.
#[derive(Clone, Debug, PartialEq, Eq)]
pub struct Diagnosis {
    /// The refusal's number, 2 to 9 of a deck, 13 of a state, 15 where a session has no such axiom.
    pub number: u32,
    /// The first bad line, from 1; 0 of 15, where the deck is too long, or where only an individual's line is missing in a
    /// state.
    pub line: u32,
    /// The byte of the line, from 1, at which the cause is met; none where it is no one place.
    pub column: Option<u32>,
    /// What was found, and what is expected.
    pub cause: String,
}

/// Line, column and cause, without the number. Unproved, as [`Diagnosis`] is.
impl fmt::Display for Diagnosis {
    fn fmt(&self, f: &mut fmt::Formatter<'_>) -> fmt::Result {
        match (self.line, self.column) {
            (0, _) => write!(f, "{}", self.cause),
            (line, None) => write!(f, "line {line}: {}", self.cause),
            (line, Some(column)) => write!(f, "line {line}, column {column}: {}", self.cause),
        }
    }
}

/// The first bad line of a deck, with the lowest of 2 to 9 that it fails, and why; none where no line check refuses the deck.
/// Unproved: the library's number and line are the answer.
#[must_use]
pub fn diagnose(deck: &[u8]) -> Option<Diagnosis> {
    if deck.len() > limits::BYTES {
        return Some(limits::too_long(deck.len()).on(0));
    }
    if deck.is_empty() {
        return Some(shape::empty().on(1));
    }
    let mut known = Known::default();
    let mut lines = (1..).zip(deck.split_inclusive(|&byte| byte == b'\n'));
    lines.find_map(|(line, text)| known.enter(line, text).err().map(|fault| fault.on(line)))
}
