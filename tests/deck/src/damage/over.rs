//! Decks that pass one limit by one, and are sound before that line.

use crate::limits::{
    AXIOMS, CLASSES, CONCEPTS, DECK_BYTES, DEPTH, INDIVIDUALS, LIST, OPTIONS, ROLES,
};
use crate::random::Random;
use crate::write::{line_bytes, lists_of_bytes, row};

/// A deck one past a limit: a count of the header, a list, the concepts, the axioms, the depth or the bytes.
pub fn over_limit(rng: &mut Random) -> Vec<u8> {
    match rng.below(6) {
        0 => long_header(rng),
        1 => long_list(rng),
        2 => many_concepts(rng),
        3 => many_axioms(rng),
        4 => deep_concept(rng),
        _ => many_bytes(),
    }
}

fn long_header(rng: &mut Random) -> Vec<u8> {
    let mut header = [0, CLASSES, INDIVIDUALS, ROLES, OPTIONS];
    header[1 + rng.index(4)] += 1;
    rows([header.to_vec()])
}

/// A list of 129, at times with names that are not declared, or falling.
fn long_list(rng: &mut Random) -> Vec<u8> {
    let mut list: Vec<u32> = (0..=to_u32(LIST)).collect();
    if rng.chance(1, 2) {
        list.reverse();
    }
    let leaves = if rng.chance(1, 2) { 130 } else { 1 };
    let mut deck = vec![vec![0, leaves, 0, leaves, 0]];
    deck.extend((0..leaves).map(|class| vec![3, class]));
    let fronts: [&[u32]; 8] = [&[7], &[8], &[22], &[23], &[24, 0], &[27, 0], &[31], &[34]];
    deck.push([rng.pick(&fronts), list.as_slice()].concat());
    rows(deck)
}

/// 1,025 concepts, the last of them sound, undeclared, its own part or a repeat.
fn many_concepts(rng: &mut Random) -> Vec<u8> {
    let most = to_u32(CONCEPTS);
    let last = *rng.pick(&[[3, most], [3, CLASSES], [6, most], [3, 0]]);
    let mut deck = vec![vec![0, most + 1, 0, 0, 0]];
    deck.extend((0..most).map(|class| vec![3, class]));
    deck.push(last.to_vec());
    rows(deck)
}

/// 1,025 axioms, the last of them sound or with a role that is not declared.
fn many_axioms(rng: &mut Random) -> Vec<u8> {
    let mut deck = vec![vec![0, 0, 0, 2, 0]];
    deck.extend((0..AXIOMS).map(|_| vec![28, rng.below(4)]));
    deck.push(vec![28, *rng.pick(&[0, 4])]);
    rows(deck)
}

/// A concept of depth 65.
fn deep_concept(rng: &mut Random) -> Vec<u8> {
    let mut deck = vec![vec![0, 1, 0, 1, 0], vec![3, 0]];
    deck.extend((0..DEPTH).map(|part| match rng.below(4) {
        0 => vec![6, part],
        1 => vec![9, 1, part],
        2 => vec![11, 2, 0, part],
        _ => vec![10, 0, part],
    }));
    rows(deck)
}

/// 65,537 bytes of sound lines.
fn many_bytes() -> Vec<u8> {
    let header = vec![0, 0, 0, 1, 0];
    let rest = DECK_BYTES + 1 - line_bytes(header.len());
    let lists = lists_of_bytes(rest)
        .into_iter()
        .map(|count| [vec![34], vec![0; count]].concat());
    rows(std::iter::once(header).chain(lists))
}

fn rows(deck: impl IntoIterator<Item = Vec<u32>>) -> Vec<u8> {
    let mut out = Vec::new();
    for numbers in deck {
        row(&mut out, &numbers);
    }
    out
}

fn to_u32(number: usize) -> u32 {
    u32::try_from(number).expect("a limit of a deck")
}
