//! Refusal 3: a line's kind, its section's place, and how many numbers it has.

use super::fault::Fault;
use super::kind::{Kind, Section};
use super::known::Known;
use super::row::{Row, place};

const FIRST: &str = "the first line is the header, kind 0";

fn fault(cause: impl Into<String>) -> Fault {
    Fault::new(3, cause)
}

/// A deck without a byte.
pub(super) fn empty() -> Fault {
    fault(format!("the deck is empty; {FIRST}"))
}

/// The line of these numbers, behind the lines that are known.
pub(super) fn row(known: &Known, numbers: Vec<u32>) -> Result<Row, Fault> {
    let on_kind = |cause: String| fault(cause).at(place(&numbers, 0));
    let Some(kind) = Kind::of(numbers[0]) else {
        let cause = format!("there is no kind {}; {}", numbers[0], expected(known));
        return Err(on_kind(cause));
    };
    if let Some(cause) = out_of_order(known, kind) {
        return Err(on_kind(cause));
    }
    if let Some(cause) = other_count(kind, numbers.len() - 1) {
        let fault = fault(cause);
        let surplus = 1 + kind.fields.len();
        return Err(match numbers.get(surplus) {
            Some(_) => fault.at(place(&numbers, surplus)),
            None => fault,
        });
    }
    Ok(Row { kind, numbers })
}

/// The kinds that may stand here.
fn expected(known: &Known) -> String {
    let (keys, concepts, axioms) = ("14 (key mark)", "1 to 12 (concepts)", "21 to 36 (axioms)");
    match known.section() {
        None => FIRST.into(),
        Some(Section::Header | Section::Keys) => {
            format!("the kinds here are {keys}, {concepts} and {axioms}")
        }
        Some(Section::Concepts) => format!("the kinds here are {concepts} and {axioms}"),
        Some(Section::Axioms) => format!("the kinds here are {axioms}"),
    }
}

/// Header, key marks, concepts, axioms; the header is one line.
fn out_of_order(known: &Known, kind: &Kind) -> Option<String> {
    let Some(section) = known.section() else {
        return (kind.section != Section::Header).then(|| format!("{kind}; {FIRST}"));
    };
    if kind.section == Section::Header {
        return Some("a second header; a deck has one, its first line".into());
    }
    (kind.section < section).then(|| {
        let (own, later) = (kind.section.lines(), section.lines());
        let line = known.first_line();
        format!("{kind} after the {later}, which begin on line {line}; {own} stand before them")
    })
}

/// Where so many numbers after the kind are too few or too many.
fn other_count(kind: &Kind, found: usize) -> Option<String> {
    let fixed = kind.fields.len();
    if found == fixed || (found > fixed && kind.list.is_some()) {
        return None;
    }
    let found = match found {
        0 => "none was found".into(),
        1 => "1 was found".into(),
        _ => format!("{found} were found"),
    };
    Some(format!("{kind} takes {}, {found}", takes(kind)))
}

fn takes(kind: &Kind) -> String {
    let names: Vec<&str> = kind.fields.iter().map(|&(name, _)| name).collect();
    let names = names.join(", ");
    match (kind.fields.len(), kind.list) {
        (0, _) => "no number after the kind".into(),
        (1, Some(_)) => format!("at least 1 number after the kind ({names}, then a list)"),
        (1, None) => format!("1 number after the kind ({names})"),
        (count, _) => format!("{count} numbers after the kind ({names})"),
    }
}
