//! Damaged copies of decks, spread over refusals 2 to 9.

mod over;

pub use over::over_limit;

use crate::limits::{
    AXIOMS, CLASSES, CONCEPTS, DECK_BYTES, FIELD, INDIVIDUALS, LIST, OPTIONS, ROLES,
};
use crate::random::Random;

/// A line as its fields, 11 bytes each where the deck is sound; the line feed is left out.
type Line = Vec<Vec<u8>>;

/// A copy of `bytes` with some damage, or a deck past one limit in its place. Some copies are sound after all.
pub fn damage(rng: &mut Random, bytes: &[u8]) -> Vec<u8> {
    match rng.weighted(&[10, 10, 8, 14, 1, 1]) {
        0 => damage_byte(rng, bytes),
        1 => on_lines(rng, bytes, |rng, lines| damage_field(rng, lines)),
        2 => on_lines(rng, bytes, damage_line),
        3 => on_lines(rng, bytes, damage_concept),
        4 => damage_size(rng, bytes),
        _ => over_limit(rng),
    }
}

/// One change to the bytes, wherever they lie.
fn damage_byte(rng: &mut Random, bytes: &[u8]) -> Vec<u8> {
    let mut out = bytes.to_vec();
    if out.is_empty() {
        return vec![b'\n'];
    }
    let at = rng.index(out.len());
    match rng.below(10) {
        0 => out[at] ^= 1 << rng.below(8),
        1 => drop(out.remove(at)),
        2 => out.insert(at, b' '),
        3 => out.insert(at, b'\n'),
        4 => out.truncate(at),
        5 => drop(out.pop()),
        6 => out[at] = *rng.pick(b"0123456789"),
        7 => out[at] = *rng.pick(b"ax-+.\t\r\0\xff"),
        8 => before_line_feed(&mut out, at, b'\r'),
        _ => text_in_field(rng, &mut out, at),
    }
    out
}

fn before_line_feed(out: &mut Vec<u8>, from: usize, byte: u8) {
    if let Some(length) = out[from..].iter().position(|&byte| byte == b'\n') {
        out.insert(from + length, byte);
    }
}

/// Puts other text in place of the field around `at`.
fn text_in_field(rng: &mut Random, out: &mut [u8], at: usize) {
    let line = out[..at]
        .iter()
        .rposition(|&byte| byte == b'\n')
        .map_or(0, |end| end + 1);
    let start = at - (at - line) % FIELD;
    let texts: [&[u8; FIELD]; 8] = [
        b" 4294967296",
        b" 9999999999",
        b"44294967295",
        b"         00",
        b"         01",
        b"           ",
        b"         1 ",
        b"         -1",
    ];
    if let Some(field) = out.get_mut(start..start + FIELD) {
        field.copy_from_slice(*rng.pick(&texts));
    }
}

/// A size that no deck has, or none at all.
fn damage_size(rng: &mut Random, bytes: &[u8]) -> Vec<u8> {
    let mut out = bytes.to_vec();
    match rng.below(3) {
        0 => out.clear(),
        1 => out.resize(DECK_BYTES + 1 + rng.index(3), b'\n'),
        _ => {
            while out.len() <= DECK_BYTES && !bytes.is_empty() {
                out.extend_from_slice(bytes);
            }
        }
    }
    out
}

fn on_lines(
    rng: &mut Random,
    bytes: &[u8],
    change: impl Fn(&mut Random, &mut Vec<Line>),
) -> Vec<u8> {
    let mut lines = split(bytes);
    if !lines.is_empty() {
        change(rng, &mut lines);
    }
    join(&lines)
}

fn split(bytes: &[u8]) -> Vec<Line> {
    let text = bytes.strip_suffix(b"\n").unwrap_or(bytes);
    if text.is_empty() {
        return Vec::new();
    }
    text.split(|&byte| byte == b'\n')
        .map(|line| line.chunks(FIELD).map(<[u8]>::to_vec).collect())
        .collect()
}

fn join(lines: &[Line]) -> Vec<u8> {
    let mut out = Vec::new();
    for line in lines {
        for field in line {
            out.extend_from_slice(field);
        }
        out.push(b'\n');
    }
    out
}

fn field(number: u32) -> Vec<u8> {
    format!("{number:>FIELD$}").into_bytes()
}

/// The number that a field holds, if it holds one.
fn number(field: &[u8]) -> Option<u32> {
    std::str::from_utf8(field).ok()?.trim().parse().ok()
}

fn kind(line: &Line) -> Option<u32> {
    line.first().and_then(|first| number(first))
}

/// The indexes of the lines of these kinds.
fn lines_of(lines: &[Line], kinds: std::ops::RangeInclusive<u32>) -> Vec<usize> {
    let is_of = |line: &Line| kind(line).is_some_and(|kind| kinds.contains(&kind));
    (0..lines.len()).filter(|&at| is_of(&lines[at])).collect()
}

/// One number becomes another, or one more or less stands in its line.
fn damage_field(rng: &mut Random, lines: &mut [Line]) {
    let at = if rng.chance(1, 5) {
        0
    } else {
        rng.index(lines.len())
    };
    let value = boundary(rng, lines, at);
    let line = &mut lines[at];
    let column = rng.index(line.len().max(1));
    match rng.below(8) {
        0 if column < line.len() => drop(line.remove(column)),
        1 => line.push(field(value)),
        2 => line.insert(column, field(value)),
        3 => line.truncate(column),
        _ if column < line.len() => line[column] = field(value),
        _ => {}
    }
}

/// A number at one of the limits of the deck, its names or the line.
fn boundary(rng: &mut Random, lines: &[Line], at: usize) -> u32 {
    let header: Vec<u32> = lines[0].iter().filter_map(|field| number(field)).collect();
    let declared = header.get(rng.index(5)).copied().unwrap_or(0);
    let concepts = lines_of(lines, 1..=12);
    let count = to_u32(concepts.len());
    let own = to_u32(concepts.partition_point(|&line| line < at));
    let numbers = [
        rng.below(40),
        declared,
        declared.saturating_sub(1),
        declared.saturating_add(1),
        declared.saturating_mul(2),
        declared.saturating_mul(2).saturating_sub(1),
        own,
        own + 1,
        count,
        count.saturating_sub(1),
        CLASSES,
        INDIVIDUALS + 1,
        ROLES,
        ROLES + 1,
        2 * ROLES,
        OPTIONS + 1,
        to_u32(LIST),
        to_u32(CONCEPTS),
        to_u32(AXIOMS) + 1,
        u32::MAX,
        u32::MAX - 1,
    ];
    *rng.pick(&numbers)
}

fn to_u32(number: usize) -> u32 {
    u32::try_from(number).unwrap_or(u32::MAX)
}

/// A line comes twice, goes away, or stands elsewhere.
fn damage_line(rng: &mut Random, lines: &mut Vec<Line>) {
    let first = rng.index(lines.len());
    let second = rng.index(lines.len());
    match rng.below(7) {
        0 => lines.swap(first, second),
        1 => lines.insert(second, lines[first].clone()),
        2 => drop(lines.remove(first)),
        3 => lines.insert(first + 1, lines[0].clone()),
        4 => lines.insert(first, Vec::new()),
        5 => {
            let line = lines.remove(first);
            lines.insert(second.min(lines.len()), line);
        }
        _ => {
            // Its line feed is lost, so two lines become one.
            let line = lines.remove(first);
            if let Some(next) = lines.get_mut(first) {
                next.splice(0..0, line);
            }
        }
    }
}

/// A concept line that fails one of refusals 5 to 9.
fn damage_concept(rng: &mut Random, lines: &mut Vec<Line>) {
    match rng.below(7) {
        0 | 1 => name_later_concept(rng, lines),
        2 | 3 => damage_list(rng, lines),
        4 => repeat_concept(rng, lines),
        5 => greatest_bound(rng, lines),
        _ => name_undeclared(rng, lines),
    }
}

/// A concept line names itself, a later or a missing concept.
fn name_later_concept(rng: &mut Random, lines: &mut [Line]) {
    let concepts = lines_of(lines, 1..=12);
    let compounds = lines_of(lines, 6..=12);
    if compounds.is_empty() {
        return;
    }
    let at = *rng.pick(&compounds);
    let own = to_u32(concepts.partition_point(|&line| line < at));
    let count = to_u32(concepts.len());
    let line = &mut lines[at];
    let column = match kind(line) {
        Some(7 | 8) => rng.index(line.len()),
        _ => line.len() - 1,
    };
    if column > 0 {
        line[column] = field(*rng.pick(&[own, own + 1, count - 1, count, u32::MAX]));
    }
}

/// An And or Or list falls short, falls, repeats, or takes a member that it may not have.
fn damage_list(rng: &mut Random, lines: &mut [Line]) {
    let lists = lines_of(lines, 7..=8);
    if lists.is_empty() {
        return;
    }
    let at = *rng.pick(&lists);
    let barred: Vec<u32> = (0..)
        .zip(lines_of(lines, 1..=12))
        .filter(|&(_, other)| other < at && matches!(kind(&lines[other]), Some(1 | 2 | 7 | 8)))
        .map(|(concept, _)| concept)
        .collect();
    let line = &mut lines[at];
    match rng.below(6) {
        0 => line.truncate(1),
        1 => line.truncate(2),
        2 => line[1..].reverse(),
        3 => {
            let member = rng.index(line.len());
            line.insert(member, line[member].clone());
        }
        4 => line.push(field(0)),
        _ => {
            if !barred.is_empty() {
                add_member(line, *rng.pick(&barred));
            }
        }
    }
}

/// Puts a member where the list stays rising.
fn add_member(line: &mut Line, member: u32) {
    let place = line
        .iter()
        .skip(1)
        .position(|other| number(other).is_some_and(|other| other >= member))
        .map_or(line.len(), |index| index + 1);
    line.insert(place, field(member));
}

/// A concept line comes again, at the end of the concepts or right after itself.
fn repeat_concept(rng: &mut Random, lines: &mut Vec<Line>) {
    let concepts = lines_of(lines, 1..=12);
    if let Some(&last) = concepts.last() {
        let at = *rng.pick(&concepts);
        let place = *rng.pick(&[at + 1, last + 1]);
        lines.insert(place, lines[at].clone());
    }
}

/// A Max gets the bound that has no successor; a Min keeps it without harm.
fn greatest_bound(rng: &mut Random, lines: &mut [Line]) {
    let counted = lines_of(lines, 11..=12);
    if counted.is_empty() {
        return;
    }
    let line = &mut lines[*rng.pick(&counted)];
    if let Some(bound) = line.get_mut(1) {
        *bound = field(u32::MAX);
    }
}

/// A line names a class, individual or role beyond the declared ones, or an axiom a missing concept.
fn name_undeclared(rng: &mut Random, lines: &mut [Line]) {
    let header: Vec<u32> = lines[0].iter().filter_map(|field| number(field)).collect();
    let &[_, classes, individuals, roles, _] = header.as_slice() else {
        return;
    };
    let concepts = to_u32(lines_of(lines, 1..=12).len());
    let at = rng.index(lines.len());
    let line = &mut lines[at];
    let (column, value) = match kind(line) {
        Some(14 | 3 | 24) => (1, classes),
        Some(4) => (1, individuals),
        Some(5 | 9 | 10 | 25..=35) => (1, 2 * roles + rng.below(2)),
        Some(11 | 12) => (2, 2 * roles + rng.below(2)),
        Some(21..=23) => (1, concepts),
        Some(36) => *rng.pick(&[(1, concepts), (2, individuals)]),
        _ => return,
    };
    if let Some(place) = line.get_mut(column) {
        *place = field(value);
    }
}
