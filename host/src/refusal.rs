//! Why a deck, a state or a call of a session is refused.

mod wording;

use std::error::Error;
use std::fmt;

use crate::words;

/// A refusal: its number, and the line that it names, the state's of [`RefusalKind::BadState`] and the deck's of all others; a
/// session's deck is the live one.
#[derive(Clone, Copy, Debug, PartialEq, Eq, Hash)]
pub struct Refusal {
    number: u32,
    line: u32,
}

impl Refusal {
    /// The refusal that a reply of the C interface tells; none where the deck is accepted, a test has its verdict, or what a
    /// session was asked for is done.
    #[must_use]
    pub fn of_reply(reply: u64) -> Option<Self> {
        let [line, number] = words::of(&reply.to_le_bytes());
        (number != 0).then_some(Self { number, line })
    }

    /// What kind of refusal it is.
    #[must_use]
    pub fn kind(self) -> RefusalKind {
        let is_it = |kind: &RefusalKind| kind.number() == Some(self.number);
        let known = RefusalKind::ALL.into_iter().find(is_it);
        known.unwrap_or(RefusalKind::Unknown)
    }

    /// The number, 1 to 15.
    #[must_use]
    pub fn number(self) -> u32 {
        self.number
    }

    /// The line, from 1; none where no line is at fault.
    #[must_use]
    pub fn line(self) -> Option<u32> {
        (self.line > 0).then_some(self.line)
    }

    /// What is wrong.
    #[must_use]
    pub fn wrong(self) -> &'static str {
        match (self.number, self.line) {
            (2, 0) => wording::TOO_LONG,
            (13, 0) => wording::NO_ELEMENT,
            _ => self.both()[0],
        }
    }

    /// What to do about it.
    #[must_use]
    pub fn remedy(self) -> &'static str {
        self.both()[1]
    }

    /// What is wrong and what to do.
    fn both(self) -> [&'static str; 2] {
        let place = words::index(self.number).checked_sub(1);
        let known = place.and_then(|place| wording::OF_NUMBERS.get(place));
        known.copied().unwrap_or(wording::OF_UNKNOWN)
    }
}

/// The line, what is wrong, what to do, and the number.
impl fmt::Display for Refusal {
    fn fmt(&self, f: &mut fmt::Formatter<'_>) -> fmt::Result {
        match self.line() {
            Some(line) if self.kind() == RefusalKind::BadState => {
                write!(f, "line {line} of the state: ")?;
            }
            Some(line) => write!(f, "line {line}: ")?,
            None => {}
        }
        let (wrong, remedy) = (self.wrong(), self.remedy());
        write!(f, "{wrong}; to do: {remedy} (refusal {})", self.number)
    }
}

impl Error for Refusal {}

/// The kinds of refusal, each with its number. Lines are checked from the first, each for 2 to 9 in turn; 10 to 12 come where
/// the run meets them; 13 and 14, of a state's test, follow them; 15, of a session, comes straight after 1.
#[derive(Clone, Copy, Debug, PartialEq, Eq, PartialOrd, Ord, Hash)]
#[repr(u8)]
#[non_exhaustive]
pub enum RefusalKind {
    /// A number that this wrapper does not know: it may be older than the library.
    Unknown = 0,
    /// A lent table has the wrong size, which a [`Clausifier`](crate::Clausifier) never lends; or a session holds no deck that
    /// passes the line checks.
    WrongSize = 1,
    /// The deck is too long, or the line breaks the columns.
    BadColumns = 2,
    /// Unknown kind, too few or too many numbers, or the wrong section.
    BadLine = 3,
    /// The line passes a limit.
    PastLimit = 4,
    /// A class, individual, role or concept that the deck does not declare.
    Undeclared = 5,
    /// A concept that names itself or a later one, or nests deeper than 64.
    BadNesting = 6,
    /// An And or Or list that is not proper.
    BadList = 7,
    /// A concept that stands on an earlier line.
    Repeated = 8,
    /// An at-most with the bound 4294967295.
    LargestBound = 9,
    /// More than 1,000,000 visits.
    VisitsSpent = 10,
    /// More than 2,048 concepts or 16,384 list members in normal form.
    PoolFull = 11,
    /// A body or head of more than 256 atoms, or a table's end.
    NoRoom = 12,
    /// A state's line that breaks the layout, or an individual without its line.
    BadState = 13,
    /// A clause that is to be tested has over four variables.
    WideClause = 14,
    /// The line that is to be struck is no axiom's in the session's deck.
    NotLive = 15,
}

impl RefusalKind {
    /// All that have a number, in the order of their numbers.
    pub const ALL: [Self; 15] = [
        Self::WrongSize,
        Self::BadColumns,
        Self::BadLine,
        Self::PastLimit,
        Self::Undeclared,
        Self::BadNesting,
        Self::BadList,
        Self::Repeated,
        Self::LargestBound,
        Self::VisitsSpent,
        Self::PoolFull,
        Self::NoRoom,
        Self::BadState,
        Self::WideClause,
        Self::NotLive,
    ];

    /// The kind's number; none where it is unknown.
    #[must_use]
    pub fn number(self) -> Option<u32> {
        (self != Self::Unknown).then_some(u32::from(self as u8))
    }
}

#[cfg(test)]
mod tests;
