//! What becomes of a session's table between two calls, and sizes that do not fit.

use deck::damage::damage;
use deck::limits::DECK_BYTES;
use deck::random::Random;
use lent::{SCRATCH, SESSION};

use crate::second::WORD;
use crate::steps::{Call, Change, Player, Step};

/// What is changed.
pub const KINDS: [&str; 16] = [
    "zeros in the session",
    "random bytes in the session",
    "the session's length one less",
    "the session's length one more",
    "another length of the session",
    "a byte of the session's length changed",
    "a byte of the session's text changed",
    "a digit of the session's text changed",
    "one of the first bytes behind the session's text changed",
    "one of the last bytes of the session changed",
    "a byte behind the session's text changed",
    "a damaged text in the session",
    "no session at all",
    "a session a byte short or long",
    "a session of another size",
    "scratch too short",
];

/// Changes a step's table or a size, and tells how.
pub fn change(rng: &mut Random, player: &Player, step: &mut Step) -> Option<String> {
    let text = player.session().map_or_else(Vec::new, |live| live.text());
    let is_start = matches!(step.call, Call::Start(_));
    let kind = match rng.weighted(&[4, 4, 6, 6, 6, 6, 14, 10, 6, 6, 6, 8, 2, 6, 4, 8]) {
        // A start does not look at what the table held, but there must be something.
        6..=8 | 10 if text.is_empty() => 1,
        kind => kind,
    };
    // A third of the starts take the table as it is.
    if is_start && rng.chance(1, 3) {
        return None;
    }
    match kind {
        12 => step.session = 0,
        13 => step.session = *rng.pick(&[SESSION - 1, SESSION + 1]),
        14 => {
            let sizes = [WORD, DECK_BYTES, SESSION - 4, SESSION + 4, 2 * SESSION];
            step.session = *rng.pick(&sizes);
        }
        15 => step.scratch = *rng.pick(&[0, 4, SCRATCH - 4, SCRATCH - 1]),
        _ => step.change = of_table(rng, &text, kind),
    }
    Some(KINDS[kind].to_owned())
}

/// Makes scratch longer than it must be, at times.
pub fn lengthen_scratch(rng: &mut Random, step: &mut Step) {
    if step.scratch == SCRATCH && rng.chance(1, 10) {
        step.scratch += *rng.pick(&[1, 2, 3, 4, 40, 4_096, 5_001]);
    }
}

fn of_table(rng: &mut Random, text: &[u8], kind: usize) -> Change {
    let length = u32::try_from(text.len()).expect("a deck's length");
    let place = |index: usize| u32::try_from(index).expect("a place in a session");
    let end = WORD + text.len();
    let byte = *rng.pick(&[1, 2, 10, 32, 48, 128, 255]);
    match kind {
        0 => Change::Zeros,
        1 => Change::Random(rng.below(1 << 20)),
        2 => Change::Length(length.wrapping_sub(1)),
        3 => Change::Length(length + 1),
        4 => {
            let line = text.iter().position(|&byte| byte == b'\n').unwrap_or(0);
            let others = [
                0,
                place(line) + 1,
                length + 12,
                65_536,
                65_537 + rng.below(4),
                length | 1 << 24,
                u32::MAX - rng.below(5),
            ];
            Change::Length(*rng.pick(&others))
        }
        5 => Change::Byte(rng.below(4), byte),
        6 => Change::Byte(place(WORD + rng.index(text.len())), byte),
        7 => {
            let digits = (0..text.len()).filter(|&index| text[index].is_ascii_digit());
            let digits: Vec<usize> = digits.collect();
            let index = *rng.pick(&digits);
            Change::Byte(place(WORD + index), *rng.pick(b"0123456789"))
        }
        8 if end < SESSION => {
            let near = rng.index(8.min(SESSION - end));
            Change::Byte(place(end + near), byte)
        }
        10 if end < SESSION => Change::Byte(place(end + rng.index(SESSION - end)), byte),
        11 => Change::Text(damage(rng, text)),
        _ => Change::Byte(place(SESSION - 1 - rng.index(8)), byte),
    }
}
