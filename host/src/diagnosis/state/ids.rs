//! What a line is of: a class, a role or an individual that the deck has.

use super::super::fault::Fault;
use super::super::names::counted;
use super::super::row::place;
use super::{Counts, fault};

pub(super) const CLASS: u32 = 51;
pub(super) const ROLE: u32 = 52;
pub(super) const INDIVIDUAL: u32 = 53;

/// What the id of a line of this kind names.
pub(super) fn what(kind: u32) -> &'static str {
    match kind {
        CLASS => "class",
        ROLE => "role",
        _ => "individual",
    }
}

/// The numbers are a line's with kind and id.
pub(super) fn check(counts: Counts, numbers: &[u32]) -> Result<(), Fault> {
    let (kind, id) = (numbers[0], numbers[1]);
    let cause = match kind {
        CLASS => class(counts, id),
        ROLE if id >= counts.roles => {
            let counted = counted(counts.roles, ["role", "roles"]);
            Some(format!(
                "there is no role {id}; the deck's header counts {counted}, named here by id and not by code"
            ))
        }
        INDIVIDUAL if id >= counts.individuals => {
            let counted = counted(counts.individuals, ["individual", "individuals"]);
            Some(format!(
                "there is no individual {id}; the deck's header counts {counted}"
            ))
        }
        _ => None,
    };
    match cause {
        Some(cause) => Err(fault(cause).at(place(numbers, 1))),
        None => Ok(()),
    }
}

/// Declared classes, then those of the individuals, then the fresh ones.
fn class(counts: Counts, id: u32) -> Option<String> {
    if id < counts.classes {
        return None;
    }
    let behind = id - counts.classes;
    if behind < counts.individuals {
        return Some(format!(
            "class {id} is that of individual {behind} and has no line: it holds the element of the individual's line 53"
        ));
    }
    if behind - counts.individuals < counts.fresh {
        return None;
    }
    let declared = counted(counts.classes, ["class", "classes"]);
    let fresh = match (counts.classes + counts.individuals, counts.fresh) {
        (_, 0) => "has no fresh one".to_owned(),
        (first, 1) => format!("has 1 fresh one ({first})"),
        (first, count) => format!("has {count} fresh ones ({first} to {})", first + count - 1),
    };
    Some(format!(
        "there is no class {id}; the deck's header counts {declared}, and its run {fresh}"
    ))
}
