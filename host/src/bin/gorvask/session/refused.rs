//! What is said where the session refuses something.

use gorvask::Refusal;
use gorvask::diagnosis::session::{diagnose_add, diagnose_options, diagnose_strike};

use super::answers::Answers;
use crate::ended::{Failure, Status, tell};
use crate::input::Input;
use crate::refused::{tell_cause, tell_line, tell_refusal};

/// No session is live. The library, handed one that holds no deck, refuses it by 1.
pub fn none(name: &str, answers: Answers) -> Result<Status, Failure> {
    let refusal = Refusal::of_reply(1 << 32).expect("a refusal's reply");
    answers.refused(refusal)?;
    tell(&format!(
        "{name}: refused by number 1: there is no session, as none was started or the last start was refused"
    ))?;
    tell("to do: start one, by 'start FILE'")?;
    Ok(Status::Refused)
}

/// The line's text is that of the deck that would come of it. A longer file is not read to its end, so that of a deck which is
/// too long no cause is told.
pub fn add(name: &str, deck: &[u8], text: &[u8], refusal: Refusal) -> Result<(), Failure> {
    let whole = input(name, [deck, text].concat());
    tell_refusal(&whole, refusal)?;
    tell_line(&whole, refusal)?;
    let known = refusal.line().and_then(|_| diagnose_add(deck, text));
    tell_cause(known, refusal)
}

pub fn strike(name: &str, deck: &[u8], line: u32, refusal: Refusal) -> Result<(), Failure> {
    tell_refusal(&input(name, Vec::new()), refusal)?;
    tell_cause(diagnose_strike(deck, line), refusal)
}

/// The header's text is not told, as it is still the old one.
pub fn options(name: &str, deck: &[u8], options: u32, refusal: Refusal) -> Result<(), Failure> {
    tell_refusal(&input(name, Vec::new()), refusal)?;
    tell_cause(diagnose_options(deck, options), refusal)
}

fn input(name: &str, bytes: Vec<u8>) -> Input {
    Input {
        what: "text",
        name: name.to_owned(),
        bytes,
    }
}
