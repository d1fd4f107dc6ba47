//! States that are no states: each way of a bad line, and what chance makes of the bytes.

use deck::Deck;
use deck::random::Random;

use crate::second::state::{State, text};

/// The text of a state, damaged in one way or two.
pub fn damaged(rng: &mut Random, deck: &Deck, fresh: u32, state: &State) -> Vec<u8> {
    let mut rows = state.rows();
    for _ in 0..=u32::from(rng.chance(1, 8)) {
        if rows.is_empty() || rows.iter().any(|row| row.len() < 2) {
            break;
        }
        match rng.below(5) {
            0 => damage_order(rng, &mut rows),
            1 => damage_ids(rng, deck, fresh, &mut rows),
            2 | 3 => damage_numbers(rng, state.size, &mut rows),
            _ => return damage_bytes(rng, text(&rows)),
        }
    }
    text(&rows)
}

type Rows = Vec<Vec<u32>>;

/// The places of the lines of a kind.
fn of_kind(rows: &Rows, kind: u32) -> Vec<usize> {
    (0..rows.len()).filter(|&at| rows[at][0] == kind).collect()
}

/// A line elsewhere, twice, or not there.
fn damage_order(rng: &mut Random, rows: &mut Rows) {
    let [first, second] = [rng.index(rows.len()), rng.index(rows.len())];
    match rng.below(9) {
        0 => rows.swap(first, second),
        1 => {
            let line = rows.remove(first);
            rows.insert(second.min(rows.len()), line);
        }
        2 => rows.insert(first, rows[first].clone()),
        3 => rows.insert(second, rows[first].clone()),
        4 => drop(rows.remove(first)),
        5 => {
            // Often a 53 that is missed.
            rows.pop();
        }
        6 => rows.insert(first + 1, rows[0].clone()),
        7 => drop(rows.remove(0)),
        _ if first + 1 < rows.len() => {
            let line = rows.remove(first + 1);
            rows[first].extend(line);
        }
        _ => rows.clear(),
    }
}

/// A kind or an id that is not to be.
fn damage_ids(rng: &mut Random, deck: &Deck, fresh: u32, rows: &mut Rows) {
    let at = rng.index(rows.len());
    match rng.below(8) {
        0 => rows[at][0] = *rng.pick(&[0, 14, 21, 49, 50, 51, 52, 53, 54, u32::MAX]),
        1 | 2 => put(rows, 51, class_at_an_end(rng, deck, fresh), Vec::new()),
        3 => {
            let codes = 2 * deck.roles;
            let role = *rng.pick(&[deck.roles, codes, codes.saturating_sub(1), u32::MAX]);
            put(rows, 52, role, Vec::new());
        }
        4 => {
            // Role codes in place of ids.
            for row in rows.iter_mut().filter(|row| row[0] == 52) {
                row[1] = row[1].saturating_mul(2);
            }
        }
        5 => put(rows, 53, deck.individuals + rng.below(2), vec![0]),
        _ => {
            let kind = rng.between(51, 53);
            let lines = of_kind(rows, kind);
            if !lines.is_empty() {
                let line = *rng.pick(&lines);
                rows[line][1] = rng.below(5);
            }
        }
    }
}

/// A class at an end of the individuals' own, or at that of the fresh ones.
fn class_at_an_end(rng: &mut Random, deck: &Deck, fresh: u32) -> u32 {
    let first_fresh = deck.classes + deck.individuals;
    let end = first_fresh + fresh;
    *rng.pick(&[
        deck.classes,
        first_fresh.saturating_sub(1),
        first_fresh,
        end,
        end.saturating_add(1),
        u32::MAX,
    ])
}

/// A line of its own, where it belongs.
fn put(rows: &mut Rows, kind: u32, id: u32, rest: Vec<u32>) {
    let place = rows.partition_point(|row| row[..2.min(row.len())] < [kind, id][..]);
    rows.insert(place, [vec![kind, id], rest].concat());
}

/// Elements that are too large, fall or come twice, pairs that are not whole, a wrong count.
fn damage_numbers(rng: &mut Random, size: u32, rows: &mut Rows) {
    let lists: Vec<usize> = (1..rows.len()).filter(|&at| rows[at].len() > 3).collect();
    let way = rng.below(12);
    if way < 3 || lists.is_empty() {
        damage_count(rng, size, &mut rows[0]);
        return;
    }
    let at = *rng.pick(&lists);
    let row = &mut rows[at];
    if rng.chance(1, 60) {
        // More numbers than any good line has.
        row.resize(*rng.pick(&[8_195, 40_960, 40_961, 50_000]), 0);
        return;
    }
    let place = 2 + rng.index(row.len() - 2);
    match way {
        3 => row[place] = size,
        4 => row[place] = *rng.pick(&[size + 1, 63, 64, u32::MAX]),
        5 => row[2..].reverse(),
        6 => row.insert(place, row[place]),
        7 => drop(row.remove(place)),
        8 => {
            // A pair or an element again.
            let width = if row[0] == 52 { 2 } else { 1 };
            let start = place - (place - 2) % width;
            let again: Vec<u32> = row[start..row.len().min(start + width)].to_vec();
            row.splice(start..start, again);
        }
        9 => turn_neighbours(rng, place, row),
        10 => row.truncate(1),
        _ => damage_individual(rng, rows),
    }
}

/// A wrong count, or none, or two numbers.
fn damage_count(rng: &mut Random, size: u32, row: &mut Vec<u32>) {
    row[1] = *rng.pick(&[0, 65, 66, size.saturating_sub(1), 100, u32::MAX]);
    match rng.below(6) {
        0 => drop(row.pop()),
        1 => row.push(size),
        _ => {}
    }
}

/// Two neighbours change their places: elements, or whole pairs, often those of one first element.
fn turn_neighbours(rng: &mut Random, place: usize, row: &mut [u32]) {
    let width = if row[0] == 52 { 2 } else { 1 };
    let mut start = place - (place - 2) % width;
    let is_of_one = |&at: &usize| width == 2 && row[at] == row[at + 2];
    let same: Vec<usize> = (2..row.len().saturating_sub(3))
        .step_by(2)
        .filter(is_of_one)
        .collect();
    if !same.is_empty() && rng.chance(1, 2) {
        start = *rng.pick(&same);
    }
    if start + 2 * width <= row.len() {
        row[start..start + 2 * width].rotate_left(width);
    }
}

/// An individual with two elements, or none.
fn damage_individual(rng: &mut Random, rows: &mut Rows) {
    let lines = of_kind(rows, 53);
    if lines.is_empty() {
        return;
    }
    let line = *rng.pick(&lines);
    if rng.chance(1, 2) {
        rows[line].push(0);
    } else {
        rows[line].pop();
    }
}

/// Bytes that break the columns.
fn damage_bytes(rng: &mut Random, mut bytes: Vec<u8>) -> Vec<u8> {
    if bytes.is_empty() {
        return bytes;
    }
    let place = rng.index(bytes.len());
    match rng.below(10) {
        0 => drop(bytes.pop()),
        1 => bytes.truncate(place),
        2 => bytes.clear(),
        3 => bytes.extend(*rng.pick(&[&b" "[..], b"\n", b"\0", b"0", b"           \n", b"\r\n"])),
        4 => drop(bytes.remove(place)),
        5 => bytes.insert(place, *rng.pick(b" 0\n\r1")),
        6 => bytes[place] = *rng.pick(b" 0\n\r\t5x-+"),
        7 => {
            // A leading zero.
            if bytes[place] == b' ' {
                bytes[place] = b'0';
            }
        }
        8 => {
            let line_feeds: Vec<usize> =
                (0..bytes.len()).filter(|&at| bytes[at] == b'\n').collect();
            if let Some(&at) = line_feeds.get(rng.index(line_feeds.len().max(1))) {
                bytes.remove(at);
            }
        }
        _ => bytes.insert(place, b'\n'),
    }
    bytes
}
