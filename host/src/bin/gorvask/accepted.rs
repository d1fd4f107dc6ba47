//! What is said after an accepted run.

use gorvask::Clauses;

use crate::ended::{Failure, Status, tell};
use crate::input::Input;

/// One line on standard error: whether no axiom of the kinds 21 to 31 is lost or weakened, and if not, why.
pub fn promise(deck: &Input, clauses: &Clauses<'_>) -> Result<Status, Failure> {
    let provisos = clauses.provisos();
    tell(&format!("{}: accepted, {provisos}", deck.name))?;
    Ok(if provisos.are_met() {
        Status::Whole
    } else {
        Status::NotWhole
    })
}
