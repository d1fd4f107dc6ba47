//! Refusal 5: a class, individual or role beyond the header's counts, or an axiom's concept beyond the concept lines.

use super::fault::Fault;
use super::kind::{Section, Sort};
use super::known::Known;
use super::row::{Entry, Row};

pub(super) fn check(known: &Known, row: &Row) -> Result<(), Fault> {
    for entry in row.entries() {
        if let Some(cause) = beyond(known, row.kind.section, entry) {
            return Err(Fault::new(5, cause).at(row.place(entry.index)));
        }
    }
    Ok(())
}

/// Where a number names what is not there. The concepts that a concept line names are left to refusal 6.
fn beyond(known: &Known, section: Section, entry: Entry) -> Option<String> {
    let [classes, individuals, roles] = known.counts;
    let concepts = known.concept_count();
    let value = entry.value;
    let told = match entry.sort {
        Sort::Class if value >= classes => {
            let counted = counted(classes, ["class", "classes"]);
            format!("class {value}; the header counts {counted}")
        }
        Sort::Individual if value >= individuals => {
            let counted = counted(individuals, ["individual", "individuals"]);
            format!("individual {value}; the header counts {counted}")
        }
        Sort::Role if value / 2 >= roles => {
            let counted = counted_roles(roles);
            format!("role code {value}; the header counts {counted}")
        }
        Sort::Concept if section == Section::Axioms && value >= concepts => {
            let counted = counted(concepts, ["concept", "concepts"]);
            format!("concept {value}; the deck has {counted}")
        }
        _ => return None,
    };
    Some(format!("there is no {told}"))
}

/// So many of them, numbered from 0.
pub(super) fn counted(count: u32, [one, more]: [&str; 2]) -> String {
    match count {
        0 => format!("no {one}"),
        1 => format!("1 {one} (0)"),
        _ => format!("{count} {more} (0 to {})", count - 1),
    }
}

/// So many roles, and their codes.
fn counted_roles(roles: u32) -> String {
    match roles {
        0 => "no role".into(),
        1 => "1 role (codes 0 and 1)".into(),
        _ => format!("{roles} roles (codes 0 to {})", 2 * roles - 1),
    }
}
