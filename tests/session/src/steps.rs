//! What is called on a session, one call after the other.

use deck::random::Random;
use lent::{SCRATCH, SESSION};

use crate::second::{Session, WORD, stored};

/// What becomes of the session's table before a call, by somebody else's hand.
#[derive(Clone, Debug, PartialEq, Eq)]
pub enum Change {
    None,
    /// All zeros.
    Zeros,
    /// Bytes at random, by a seed.
    Random(u32),
    /// Another length in its first word.
    Length(u32),
    /// Another byte somewhere.
    Byte(u32, u8),
    /// Any text with its length before it.
    Text(Vec<u8>),
}

#[derive(Clone, Debug, PartialEq, Eq)]
pub enum Call {
    Start(Vec<u8>),
    Add(Vec<u8>),
    Strike(u32),
    Options(u32),
    /// Bytes of clauses, atoms, deferrals and numbers.
    Take([usize; 4]),
}

impl Call {
    /// The call's name.
    #[must_use]
    pub fn name(&self) -> &'static str {
        match self {
            Self::Start(_) => "start",
            Self::Add(_) => "add",
            Self::Strike(_) => "strike",
            Self::Options(_) => "options",
            Self::Take(_) => "take",
        }
    }
}

#[derive(Clone, Debug, PartialEq, Eq)]
pub struct Step {
    pub change: Change,
    /// Bytes of the session's table that are lent.
    pub session: usize,
    /// Bytes of scratch.
    pub scratch: usize,
    pub call: Call,
}

impl Step {
    /// A call with good sizes on the session as it is.
    #[must_use]
    pub fn of(call: Call) -> Self {
        Self {
            change: Change::None,
            session: SESSION,
            scratch: SCRATCH,
            call,
        }
    }
}

/// A session under way.
pub struct Player {
    /// Its table; at first zeros.
    table: Vec<u8>,
    /// Its lines, as the calls have left them.
    session: Option<Session>,
}

impl Default for Player {
    fn default() -> Self {
        Self {
            table: vec![0; SESSION],
            session: None,
        }
    }
}

impl Player {
    /// The session, where there is one.
    #[must_use]
    pub fn session(&self) -> Option<&Session> {
        self.session.as_ref()
    }

    /// The table that a step lends.
    #[must_use]
    pub fn lent(&self, step: &Step) -> Vec<u8> {
        let mut table = changed(&self.table, &step.change);
        table.resize(step.session, 0);
        table
    }

    /// The session of the table that a step lends. The lines are kept from call to call, and read from the table only where somebody
    /// else wrote to it.
    #[must_use]
    pub fn live(&self, step: &Step, lent: &[u8]) -> Option<Session> {
        match step.change {
            Change::None => self.session.clone(),
            _ => Session::held(lent),
        }
    }

    /// Goes on with the table that a step left. What a step refused, or only took, leaves no trace in the session, nor does a
    /// table of a wrong size.
    pub fn go_on(&mut self, step: &Step, reply: u64, left: &[u8]) {
        let keeps = match step.call {
            Call::Start(_) => false,
            Call::Take(_) => true,
            _ => reply != 0,
        };
        if step.session != SESSION || keeps {
            return;
        }
        self.session = match (&step.change, &step.call, self.session.take()) {
            (_, Call::Start(_), _) if reply != 0 => None,
            (_, Call::Start(deck), _) => Session::start(deck).ok(),
            (Change::None, Call::Add(text), Some(session)) => session.add(text).ok(),
            (Change::None, Call::Strike(line), Some(session)) => session.strike(*line).ok(),
            (Change::None, Call::Options(options), Some(session)) => session.options(*options).ok(),
            _ => Session::held(left),
        };
        self.table = left.to_vec();
    }
}

/// A table with a change.
fn changed(table: &[u8], change: &Change) -> Vec<u8> {
    let mut table = table.to_vec();
    match change {
        Change::None => {}
        Change::Zeros => table.fill(0),
        Change::Random(seed) => {
            let mut rng = Random::new((*seed).into());
            for part in table.chunks_mut(8) {
                part.copy_from_slice(&rng.bits().to_le_bytes()[..part.len()]);
            }
        }
        Change::Length(length) => table[..WORD].copy_from_slice(&length.to_le_bytes()),
        Change::Byte(place, byte) => table[*place as usize] = *byte,
        Change::Text(text) => table = stored(text),
    }
    table
}
