//! Refusal 7: the members of an And or Or.

use std::cmp::Ordering;

use super::fault::Fault;
use super::kind::Kind;
use super::known::Known;
use super::row::{Entry, Row};

pub(super) fn check(known: &Known, row: &Row) -> Result<(), Fault> {
    if !matches!(row.kind.number, Kind::AND | Kind::OR) {
        return Ok(());
    }
    let members: Vec<Entry> = row.parts().collect();
    if members.len() < 2 {
        return Err(too_few(row.kind, members.len()));
    }
    let order = (members.iter().zip(&members[1..]))
        .map(|(first, second)| (second, not_rising(first.value, second.value)));
    let each = (members.iter()).map(|member| (member, barred(known, row.kind, member.value)));
    match order
        .chain(each)
        .find_map(|(member, cause)| Some((member, cause?)))
    {
        Some((member, cause)) => Err(Fault::new(7, cause).at(row.place(member.index))),
        None => Ok(()),
    }
}

/// The kind with its article.
fn article(kind: &Kind) -> &'static str {
    if kind.number == Kind::AND {
        "an And"
    } else {
        "an Or"
    }
}

/// Of 0 or 1 members.
fn too_few(kind: &Kind, count: usize) -> Fault {
    let members = ["no member", "one member"][count];
    let list = article(kind);
    Fault::new(7, format!("{list} of {members}; it has at least two"))
}

fn not_rising(first: u32, second: u32) -> Option<String> {
    let order = "members rise, each once";
    match first.cmp(&second) {
        Ordering::Less => None,
        Ordering::Equal => Some(format!("member {first} stands twice; {order}")),
        Ordering::Greater => Some(format!("member {second} after member {first}; {order}")),
    }
}

/// Where a concept may not be a member: Top, Bot, or a list of the same kind.
fn barred(known: &Known, kind: &Kind, member: u32) -> Option<String> {
    let concept = known.concept(member);
    let (name, list) = (concept.kind.name, article(kind));
    let (is, rule) = match concept.kind.number {
        Kind::TOP | Kind::BOT => (name.into(), "neither Top nor Bot is a member"),
        number if number == kind.number => (format!("{list} too"), "name its members instead"),
        _ => return None,
    };
    Some(format!(
        "member {member} is {is}, on line {}; {rule}",
        concept.line
    ))
}
