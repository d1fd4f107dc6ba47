//! The deck's length, and refusal 4: the other limits.

use super::fault::Fault;
use super::kind::Section;
use super::known::Known;
use super::row::Row;

/// Bytes of a deck.
pub(super) const BYTES: usize = 65_536;
/// Members of a list.
const LIST: usize = 128;
/// Concept lines, and axiom lines.
const LINES: usize = 1_024;
/// The header's classes, individuals, roles and options.
const COUNTS: [u32; 4] = [4_096, 4_096, 1_024, 15];

/// A deck of so many bytes, which is refusal 2.
pub(super) fn too_long(bytes: usize) -> Fault {
    let over = bytes - BYTES;
    let cause = format!("the deck has {bytes} bytes, {over} more than the {BYTES} it may have");
    Fault::new(2, cause)
}

fn fault(cause: String) -> Fault {
    Fault::new(4, cause)
}

pub(super) fn check(known: &Known, row: &Row) -> Result<(), Fault> {
    let listed = row.list().len();
    if listed > LIST {
        let beyond = row.numbers.len() - listed + LIST;
        let cause = format!("a list of {listed} entries; {LIST} are the most");
        return Err(fault(cause).at(row.place(beyond)));
    }
    let section = row.kind.section;
    match section {
        Section::Header => header(row),
        Section::Keys => Ok(()),
        Section::Concepts => room(section, known.concepts.len()),
        Section::Axioms => room(section, known.axioms),
    }
}

fn header(row: &Row) -> Result<(), Fault> {
    let names = row.kind.fields.iter().map(|&(name, _)| name);
    for ((entry, name), most) in row.entries().zip(names).zip(COUNTS) {
        let value = entry.value;
        if value > most {
            let cause = format!("{name} {value}; {most} is the most");
            return Err(fault(cause).at(row.place(entry.index)));
        }
    }
    Ok(())
}

/// Room for one line more.
fn room(section: Section, lines: usize) -> Result<(), Fault> {
    if lines < LINES {
        return Ok(());
    }
    let (name, found) = (section.lines(), lines + 1);
    Err(fault(format!("{found} {name}; {LINES} are the most")))
}
