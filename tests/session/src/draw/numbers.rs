//! Lines to be struck, and options.

use deck::limits::OPTIONS;
use deck::random::Random;

use crate::second::{AXIOM_KINDS, Session};

/// Which line is struck.
pub const KINDS: [&str; 9] = [
    "any axiom",
    "the first axiom",
    "the last axiom",
    "the header",
    "a key mark",
    "a concept",
    "line 0",
    "the line past the end",
    "a line far past the end",
];

/// A line of the live deck to be struck, or what is none, and which it is.
pub fn line(rng: &mut Random, session: Option<&Session>) -> (u32, &'static str) {
    let kinds: Vec<(u32, u32)> = session.map_or_else(Vec::new, |live| live.kinds().collect());
    let of = |is_of: &dyn Fn(u32) -> bool| -> Vec<u32> {
        let lines = kinds.iter().filter(|(_, kind)| is_of(*kind));
        lines.map(|&(line, _)| line).collect()
    };
    let axioms = of(&|kind| AXIOM_KINDS.contains(&kind));
    let keys = of(&|kind| kind == 14);
    let concepts = of(&|kind| (1..=12).contains(&kind));
    let past = session.map_or(1, |live| live.lines() + 1);
    let drawn = rng.weighted(&[60, 15, 20, 2, 2, 4, 2, 4, 3]);
    let found = match drawn {
        0 if !axioms.is_empty() => Some(*rng.pick(&axioms)),
        1 => axioms.first().copied(),
        2 => axioms.last().copied(),
        3 => Some(1),
        4 => keys.last().copied(),
        5 if rng.chance(1, 2) => concepts.last().copied(),
        5 if !concepts.is_empty() => Some(*rng.pick(&concepts)),
        6 => Some(0),
        7 => Some(past),
        8 => Some(*rng.pick(&[past + 1, 2 * past, 65_536, 1 << 31, u32::MAX])),
        _ => None,
    };
    match found {
        Some(line) => (line, KINDS[drawn]),
        None => (past, KINDS[7]),
    }
}

/// Options that a header may have, or may not.
pub fn options(rng: &mut Random) -> u32 {
    match rng.below(6) {
        0 => {
            let others = [
                OPTIONS + 1,
                OPTIONS + 2,
                2 * OPTIONS + 1,
                2 * OPTIONS + 2,
                20,
                100,
            ];
            *rng.pick(&others)
        }
        1 => *rng.pick(&[1 << 8, 1 << 16, 1 << 31, u32::MAX, u32::MAX - 1]),
        _ => rng.below(OPTIONS + 1),
    }
}
