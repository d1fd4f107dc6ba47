//! The order of the refusals.

use deck::limits::{DECK_BYTES, OPTIONS};
use lent::{SCRATCH, SESSION};

use super::{
    DONE, Written, add, add_text, broken, lines, no, on, options, sized, start, strike, take,
    take_with,
};
use crate::steps::Change;

const SMALL: &str = "0 2 0 1 3; 3 0; 3 1; 21 0 1";

pub fn all() -> Vec<Written> {
    vec![
        of_layouts(),
        of_kinds(),
        of_lengths(),
        one_first(),
        of_starts(),
    ]
}

/// 2 before 3, of the first line.
fn of_layouts() -> Written {
    let [good, other] = ["21 1 0", "28 0"].map(lines);
    let broken = b"         21          x          0\n".to_vec();
    let joined = |texts: &[&[u8]]| texts.concat();
    let steps = vec![
        start(SMALL, DONE),
        add_text(b"", no(3, 5)),
        add_text(b"\n", no(2, 5)),
        add_text(b" ", no(2, 5)),
        add_text(&good[..good.len() - 1], no(2, 5)),
        add_text(&good[1..], no(2, 5)),
        add_text(&broken, no(2, 5)),
        add_text(&joined(&[&broken, &good]), no(2, 5)),
        add_text(&joined(&[&good, &broken]), no(3, 5)),
        add_text(&joined(&[&good, &other]), no(3, 5)),
        add_text(&joined(&[&good, b"\n"]), no(3, 5)),
        add_text(&joined(&[&good, b" "]), no(3, 5)),
        add_text(&joined(&[b"\n", &good]), no(2, 5)),
        add_text(&joined(&[&lines("3 0"), &broken]), no(3, 5)),
        add_text(b"         21          0          1\r\n", no(2, 5)),
        add_text(b"         21 4294967296          1\n", no(2, 5)),
        add_text(b"         21         00          1\n", no(2, 5)),
        add_text(&good, DONE),
        add_text(&joined(&[&good, &broken]), no(3, 6)),
        take_with(2, DONE),
    ];
    Written::new("2 before 3, of the first line", steps)
}

/// 3 before 4 and 5.
fn of_kinds() -> Written {
    let steps = vec![
        start(SMALL, DONE),
        add("20 0 1", no(3, 5)),
        add("37 0 1", no(3, 5)),
        add("13", no(3, 5)),
        add("4294967295", no(3, 5)),
        add("3 0", no(3, 5)),
        add("3 9", no(3, 5)),
        add("12 4294967295 0 0", no(3, 5)),
        add("14 0", no(3, 5)),
        add(&format!("0 2 0 1 {}", OPTIONS + 1), no(3, 5)),
        add("21 0", no(3, 5)),
        add("21 0 1 1", no(3, 5)),
        add("21", no(3, 5)),
        add("21 0 9 9", no(3, 5)),
        add("21 0 2", no(5, 5)),
        add("24 2 0", no(5, 5)),
        add("28 2", no(5, 5)),
        add("36 0 0", no(5, 5)),
        add("21 1 0", DONE),
        add("21 0 2", no(5, 6)),
        take_with(2, DONE),
    ];
    Written::new("3 before 4 and 5", steps)
}

/// A text that is too long is not looked at.
fn of_lengths() -> Written {
    let room = DECK_BYTES - lines(SMALL).len();
    let good = lines("21 1 0");
    let steps = vec![
        start(SMALL, DONE),
        add_text(&broken(room + 1), no(2, 0)),
        add_text(&broken(room), no(2, 5)),
        add_text(&broken(DECK_BYTES + 1), no(2, 0)),
        add_text(&[good.clone(), broken(room - 33)].concat(), no(2, 0)),
        add_text(&[good.clone(), broken(room - 34)].concat(), no(3, 5)),
        add_text(&[lines("3 0"), broken(room)].concat(), no(2, 0)),
        take_with(1, DONE),
    ];
    Written::new("too long before all else but 1", steps)
}

/// 1 before each other number.
fn one_first() -> Written {
    let on_zeros = |called| on(Change::Zeros, called);
    let steps = vec![
        add("21 0 1", no(1, 0)),
        strike(4, no(1, 0)),
        options(0, no(1, 0)),
        take(no(1, 0)),
        strike(0, no(1, 0)),
        options(OPTIONS + 1, no(1, 0)),
        add_text(b"", no(1, 0)),
        add_text(&broken(DECK_BYTES + 1), no(1, 0)),
        start(SMALL, DONE),
        strike(1, no(15, 0)),
        on_zeros(strike(1, no(1, 0))),
        on_zeros(options(OPTIONS + 1, no(1, 0))),
        on_zeros(add("3 0", no(1, 0))),
        on_zeros(take_with(0, no(1, 0))),
        sized(SESSION - 1, SCRATCH, strike(1, no(1, 0))),
        sized(SESSION, SCRATCH - 1, strike(1, no(1, 0))),
        sized(SESSION, SCRATCH - 1, options(OPTIONS + 1, no(1, 0))),
        sized(SESSION, SCRATCH - 1, add("3 0", no(1, 0))),
        sized(SESSION, SCRATCH - 1, take_with(0, no(1, 0))),
        strike(4, DONE),
        strike(4, no(15, 0)),
    ];
    Written::new("1 before 15 and the others", steps)
}

/// A refused start leaves zeros, and an accepted one no trace of what there was.
fn of_starts() -> Written {
    let steps = vec![
        start(SMALL, DONE),
        add("21 1 0", DONE),
        start("0 1 0 0 0; 3 0; 22", DONE),
        add("21 0 0", DONE),
        strike(3, DONE),
        take(DONE),
        start("0 1 0 0 0; 3 1", no(5, 2)),
        strike(3, no(1, 0)),
        start("0 1 0 0 0; 6 0", no(6, 2)),
        start("0 1 0 0 0; 3 0; 7 0", no(7, 3)),
        start("0 1 0 0 0; 3 0; 3 0", no(8, 3)),
        start("0 1 0 1 0; 3 0; 12 4294967295 0 0", no(9, 3)),
        start(&format!("0 1 0 0 {}", OPTIONS + 1), no(4, 1)),
        start("14 0", no(3, 1)),
        start("0 1 0 0 0; 22; 14 0", no(3, 3)),
        super::of(crate::steps::Call::Start(Vec::new()), no(3, 1)),
        super::of(crate::steps::Call::Start(b"x\n".to_vec()), no(2, 1)),
        take(no(1, 0)),
        start(SMALL, DONE),
        sized(SESSION, SCRATCH - 1, start(SMALL, no(1, 0))),
        take(no(1, 0)),
        start(SMALL, DONE),
        sized(SESSION + 1, SCRATCH, start(SMALL, no(1, 0))),
        sized(SESSION - 1, SCRATCH, start(SMALL, no(1, 0))),
        sized(0, SCRATCH, start(SMALL, no(1, 0))),
        sized(7, 0, start(SMALL, no(1, 0))),
        on(Change::Random(1), start(SMALL, DONE)),
        on(Change::Length(3), start(SMALL, DONE)),
        take(DONE),
    ];
    Written::new("a start over a session", steps)
}
