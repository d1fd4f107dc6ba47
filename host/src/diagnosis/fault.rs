//! What is wrong with one line.

use super::Diagnosis;

/// The number of the check that fails, and why.
#[derive(Debug)]
pub(super) struct Fault {
    number: u32,
    /// A byte of the line, from 1.
    column: Option<u32>,
    cause: String,
}

impl Fault {
    pub fn new(number: u32, cause: impl Into<String>) -> Self {
        Self {
            number,
            column: None,
            cause: cause.into(),
        }
    }

    /// The same, met at the byte `place` of the line, from 0.
    pub fn at(self, place: usize) -> Self {
        Self {
            column: u32::try_from(place + 1).ok(),
            ..self
        }
    }

    /// The same, told by another number.
    pub fn of_number(self, number: u32) -> Self {
        Self { number, ..self }
    }

    /// The same, of this line.
    pub fn on(self, line: u32) -> Diagnosis {
        let Self {
            number,
            column,
            cause,
        } = self;
        Diagnosis {
            number,
            line,
            column,
            cause,
        }
    }
}
