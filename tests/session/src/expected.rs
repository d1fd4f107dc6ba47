//! What each call must leave, by the second reading.

use deck::Refusal;
use entry::Sizes;
use lent::{SCRATCH, SESSION};

use crate::second::{NO_SESSION, Session};
use crate::steps::{Call, Player, Step};

/// What a call must reply.
#[derive(Clone, Debug, PartialEq, Eq)]
pub enum Reply {
    Of(Result<(), Refusal>),
    /// That of a run of this live deck.
    OfRun(Vec<u8>),
}

/// What a call must leave.
#[derive(Clone, Debug, PartialEq, Eq)]
pub struct Expected {
    pub reply: Reply,
    pub session: Vec<u8>,
}

impl Player {
    /// What the step must leave of the table that it lends.
    #[must_use]
    pub fn expected(&self, step: &Step, lent: &[u8]) -> Expected {
        let refused = |refusal: Refusal, session: Vec<u8>| Expected {
            reply: Reply::Of(Err(refusal)),
            session,
        };
        let did = if has_good_sizes(step) {
            self.did(step, lent)
        } else {
            Err(NO_SESSION)
        };
        let is_start = matches!(step.call, Call::Start(_));
        match did {
            Ok(Did::Session(session)) => Expected {
                reply: Reply::Of(Ok(())),
                session: session.table(),
            },
            Ok(Did::Taken(session)) => Expected {
                reply: Reply::OfRun(session.text()),
                session: lent.to_vec(),
            },
            Err(refusal) if is_start => refused(refusal, vec![0; lent.len()]),
            Err(refusal) => refused(refusal, lent.to_vec()),
        }
    }

    /// What a step of good sizes does.
    fn did(&self, step: &Step, lent: &[u8]) -> Result<Did, Refusal> {
        if let Call::Start(deck) = &step.call {
            return Session::start(deck).map(Did::Session);
        }
        let session = self.live(step, lent).ok_or(NO_SESSION)?;
        match &step.call {
            Call::Start(_) => unreachable!("it is done"),
            Call::Add(text) => session.add(text).map(Did::Session),
            Call::Strike(line) => session.strike(*line).map(Did::Session),
            Call::Options(options) => session.options(*options).map(Did::Session),
            Call::Take(_) => Ok(Did::Taken(session)),
        }
    }
}

/// What is done: another session, or the clauses of this one.
enum Did {
    Session(Session),
    Taken(Session),
}

/// Whether nothing is refused by its size.
fn has_good_sizes(step: &Step) -> bool {
    let answer = match step.call {
        Call::Take([clauses, atoms, deferrals, numbers]) => {
            let sizes = Sizes([clauses, atoms, deferrals, numbers, step.scratch]);
            sizes.rooms().is_some()
        }
        _ => true,
    };
    step.session == SESSION && step.scratch >= SCRATCH && answer
}
