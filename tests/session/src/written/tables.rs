//! Tables that hold no session, or another one, and sizes.

use deck::limits::{DECK_BYTES, OPTIONS};
use lent::{SCRATCH, SESSION};

use super::{Called, DONE, Written, add, lines, no, of, on, options, sized, start, strike, take};
use crate::second::WORD;
use crate::steps::{Call, Change};

const SMALL: &str = "0 2 0 1 3; 3 0; 3 1; 21 0 1";

pub fn all() -> Vec<Written> {
    vec![
        Written::new("no session in the table", no_session()),
        Written::new("another session in the table", other_session()),
        Written::new("sizes", sizes()),
    ]
}

/// Each call that needs a session, on a changed table.
fn refused_on(change: &Change) -> Vec<Called> {
    let all = [
        add("21 1 0", no(1, 0)),
        strike(4, no(1, 0)),
        options(0, no(1, 0)),
        take(no(1, 0)),
    ];
    all.map(|called| on(change.clone(), called)).into()
}

/// Lengths that a small one does not have.
fn lengths(length: u32) -> Vec<Change> {
    vec![
        Change::Length(0),
        Change::Length(length - 1),
        Change::Length(length + 1),
        Change::Length(length - 34),
        Change::Length(length + 34),
        Change::Length(65_536),
        Change::Length(65_537),
        Change::Length(length | 1 << 31),
        Change::Length(u32::MAX),
        Change::Length(u32::MAX - 3),
        Change::Length(u32::MAX - 4),
    ]
}

/// Bytes that a small one, whose deck ends at `end`, does not have.
fn bytes(end: u32) -> Vec<Change> {
    let last = u32::try_from(SESSION).expect("a size") - 1;
    vec![
        Change::Byte(3, 1),
        Change::Byte(4, b'0'),
        Change::Byte(end - 1, b' '),
        Change::Byte(end - 2, b'2'),
        Change::Byte(end, b'\n'),
        Change::Byte(end, 0x20),
        Change::Byte(end + 1, 1),
        Change::Byte(last, 1),
        Change::Byte(last - 1, 0x80),
        Change::Byte(32_768, 1),
    ]
}

/// What leaves no session of a small one.
fn changes() -> Vec<Change> {
    let text = lines(SMALL);
    let length = u32::try_from(text.len()).expect("short");
    let word = u32::try_from(WORD).expect("four");
    let in_text = |text: &str| Change::Text(lines(text));
    let mut all = vec![Change::Zeros, Change::Random(1)];
    all.extend(lengths(length));
    all.extend(bytes(length + word));
    all.extend([
        in_text(&format!("0 2 0 1 {}; 3 0", OPTIONS + 1)),
        in_text("0 2 0 1 3; 3 2"),
        in_text("0 2 0 1 3; 3 0; 6 1"),
        in_text("0 2 0 1 3; 3 0; 3 0"),
        in_text("21 0 1"),
        Change::Text(Vec::new()),
        Change::Text(vec![b'\n'; DECK_BYTES]),
        Change::Text(text[..text.len() - 1].to_vec()),
        Change::Text([&text[..], b" "].concat()),
    ]);
    all
}

fn no_session() -> Vec<Called> {
    let mut all = vec![start(SMALL, DONE)];
    all.extend(changes().iter().flat_map(refused_on));
    // The session itself goes on.
    all.push(take(DONE));
    all.push(strike(4, DONE));
    all
}

/// What a table holds is all that counts.
fn other_session() -> Vec<Called> {
    let length = u32::try_from(lines(SMALL).len()).expect("short");
    vec![
        on(Change::Text(lines(SMALL)), take(DONE)),
        on(Change::Text(lines(SMALL)), strike(4, DONE)),
        strike(4, no(15, 0)),
        start(SMALL, DONE),
        on(
            Change::Text(lines("0 0 0 1 0; 28 0; 28 1")),
            strike(2, DONE),
        ),
        add("28 2", no(5, 3)),
        strike(2, DONE),
        start(SMALL, DONE),
        // The axiom becomes 21 1 1; the last number stands before the line feed.
        on(Change::Byte(4 + length - 13, b'1'), options(7, DONE)),
        take(DONE),
        on(Change::Byte(3, 0), take(DONE)),
        on(Change::Byte(65_539, 0), add("21 1 0", DONE)),
        on(Change::Text(lines("0 0 0 0 0")), add("22", DONE)),
        strike(2, DONE),
    ]
}

fn take_sized(clauses: usize, atoms: usize, deferrals: usize, numbers: usize) -> Called {
    of(Call::Take([clauses, atoms, deferrals, numbers]), no(1, 0))
}

fn sizes() -> Vec<Called> {
    let mut all = vec![start(SMALL, DONE)];
    for session in [0, 3, 4, 65_536, SESSION - 1, SESSION + 1, 2 * SESSION] {
        for called in [
            add("21 1 0", no(1, 0)),
            strike(4, no(1, 0)),
            options(0, no(1, 0)),
            take(no(1, 0)),
        ] {
            all.push(sized(session, SCRATCH, called));
        }
    }
    for scratch in [0, 1, SCRATCH - 1] {
        let no_one = no(1, 0);
        all.push(sized(SESSION, scratch, add("21 1 0", no_one)));
        all.push(sized(SESSION, scratch, strike(4, no_one)));
        all.push(sized(SESSION, scratch, options(0, no_one)));
        all.push(sized(SESSION, scratch, take(no_one)));
    }
    all.extend([
        take_sized(12, 24, 8, 0),
        take_sized(12, 24, 8, 39),
        take_sized(12, 24, 8, 41),
        take_sized(11, 24, 8, 40),
        take_sized(12, 23, 8, 40),
        take_sized(12, 24, 7, 40),
        take_sized(12 * 65_537, 24, 8, 40),
    ]);
    for scratch in [SCRATCH + 1, SCRATCH + 4_096] {
        all.push(sized(SESSION, scratch, add("21 1 0", DONE)));
        all.push(sized(SESSION, scratch, options(2, DONE)));
        all.push(sized(SESSION, scratch, take(DONE)));
        all.push(sized(SESSION, scratch, strike(5, DONE)));
    }
    all
}
