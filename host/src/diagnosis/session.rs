//! What is wrong with a change of a session's live deck that is refused (refusals 2 to 5 and 15), as far as it can be told.
//!
//! Nothing here is proved: where the diagnosis has another number or line than the library, the library's is right.

use super::fault::Fault;
use super::kind::{Kind, Section};
use super::known::Known;
use super::row::place;
use super::{Diagnosis, diagnose, layout, limits};

/// The refusal of a line that is to be struck.
const NOT_LIVE: u32 = 15;
/// Bytes of the header before its options.
const BEFORE_OPTIONS: usize = 4 * layout::FIELD;

/// Why a text is not added to a live deck; none where it is. Unproved: the library's number and line are the answer.
#[must_use]
pub fn diagnose_add(deck: &[u8], text: &[u8]) -> Option<Diagnosis> {
    let bytes = deck.len() + text.len();
    if bytes > limits::BYTES {
        return Some(limits::too_long(bytes).on(0));
    }
    let (known, lines) = read(deck)?;
    added(known, lines + 1, text)
        .err()
        .map(|fault| fault.on(lines + 1))
}

/// Why no axiom is struck on a line of a live deck; none where one is. Unproved, likewise.
#[must_use]
pub fn diagnose_strike(deck: &[u8], line: u32) -> Option<Diagnosis> {
    let (known, lines) = read(deck)?;
    let found = match line {
        0 => "lines are counted from 1".to_owned(),
        _ if line > lines => format!("the last line is {lines}"),
        _ => stands(deck, line)?,
    };
    let axioms = match known.axioms {
        0 => "the deck has no axiom".to_owned(),
        1 => format!("the one axiom stands on line {lines}"),
        _ => format!(
            "the axioms stand on lines {} to {lines}",
            known.first_line()
        ),
    };
    let cause = format!("there is no axiom on line {line}: {found}, and {axioms}");
    Some(Fault::new(NOT_LIVE, cause).on(0))
}

/// Why a live deck's header does not take other options; none where it does. Unproved, likewise.
#[must_use]
pub fn diagnose_options(deck: &[u8], options: u32) -> Option<Diagnosis> {
    let counts = deck.get(..BEFORE_OPTIONS)?;
    let options = format!("{options:11}\n");
    diagnose(&[counts, options.as_bytes()].concat())
}

/// What is known behind a deck, and how many lines it has; none where a line check refuses it.
fn read(deck: &[u8]) -> Option<(Known, u32)> {
    let mut known = Known::default();
    let mut lines = 0;
    for (line, text) in (1..).zip(deck.split_inclusive(|&byte| byte == b'\n')) {
        known.enter(line, text).ok()?;
        lines = line;
    }
    Some((known, lines))
}

/// Takes a text as the line behind those that are known, if it is an axiom's.
fn added(mut known: Known, line: u32, text: &[u8]) -> Result<(), Fault> {
    let Some(first) = text.split_inclusive(|&byte| byte == b'\n').next() else {
        return Err(no_axiom("an empty text"));
    };
    let numbers = layout::numbers("line", first)?;
    let surplus = text.len() - first.len();
    if surplus > 0 {
        let bytes = if surplus == 1 { "byte" } else { "bytes" };
        return Err(no_axiom(&format!("{surplus} {bytes} behind its line feed")));
    }
    let on_kind = |found: &str| Err(no_axiom(found).at(place(&numbers, 0)));
    match Kind::of(numbers[0]) {
        None => on_kind(&format!("there is no kind {}", numbers[0])),
        Some(kind) if kind.section != Section::Axioms => on_kind(&kind.to_string()),
        Some(_) => known.enter(line, first),
    }
}

fn no_axiom(found: &str) -> Fault {
    let cause = format!("{found}; what is added is one line of the kinds 21 to 36 (axioms)");
    Fault::new(3, cause)
}

/// What stands on a line that is none of an axiom.
fn stands(deck: &[u8], line: u32) -> Option<String> {
    let place = usize::try_from(line).ok()?.checked_sub(1)?;
    let text = deck.split_inclusive(|&byte| byte == b'\n').nth(place)?;
    let kind = Kind::of(*layout::numbers("deck", text).ok()?.first()?)?;
    (kind.section != Section::Axioms).then(|| format!("{kind} stands there"))
}
