//! The ends: bytes, axioms, none of them, options, takings that are refused.

use deck::limits::{AXIOMS, DECK_BYTES, OPTIONS};
use deck::write::{lists_of_bytes, row};

use super::{
    Called, DONE, Written, add, add_text, broken, lines, no, of, options, start, strike, take,
    take_with,
};
use crate::steps::Call;

pub fn all() -> Vec<Written> {
    vec![
        Written::new("65,536 bytes exactly", up_to_the_end()),
        Written::new("65,537 bytes", past_the_end()),
        Written::new("1,024 axioms and the 1,025th", most_axioms()),
        Written::new("struck down to none", down_to_none()),
        Written::new("lines move up", lines_move_up()),
        Written::new("a deck without axioms", without_axioms()),
        Written::new("a header alone", header_alone()),
        Written::new("options that change the answer", options_change()),
        Written::new("a role followed, and one step again", followed()),
        Written::new("a taking refused by 10", by_visits()),
        Written::new("a taking refused by 12", by_room()),
        Written::new("a list of 128 and of 129", long_lists()),
    ]
}

/// A deck of so many bytes: one role, options 3, and lists of roles.
fn long_deck(bytes: usize) -> Vec<u8> {
    let mut deck = lines("0 0 0 1 3");
    for length in lists_of_bytes(bytes - deck.len()) {
        row(&mut deck, &[vec![34], vec![0; length]].concat());
    }
    assert_eq!(deck.len(), bytes);
    deck
}

fn count_lines(deck: &[u8]) -> u32 {
    let ends = deck.iter().filter(|&&byte| byte == b'\n').count();
    u32::try_from(ends).expect("a deck's lines")
}

/// 34 bytes are left.
fn up_to_the_end() -> Vec<Called> {
    let deck = long_deck(DECK_BYTES - 34);
    let line = count_lines(&deck) + 1;
    vec![
        of(Call::Start(deck), DONE),
        add("33 0 0", DONE),
        take(DONE),
        add("22", no(2, 0)),
        add_text(b"\n", no(2, 0)),
        add_text(b"", no(3, u64::from(line) + 1)),
        strike(line + 1, no(15, 0)),
        strike(line, DONE),
        add_text(&[b'x'; 35], no(2, 0)),
        add_text(&[b'x'; 34], no(2, line.into())),
        add("33 0 1", DONE),
        options(0, DONE),
        take(DONE),
    ]
}

/// 33 bytes are left, and a whole deck of 65,536.
fn past_the_end() -> Vec<Called> {
    let deck = long_deck(DECK_BYTES - 33);
    let line = count_lines(&deck) + 1;
    vec![
        of(Call::Start(deck), DONE),
        add("33 0 0", no(2, 0)),
        add("28 0", DONE),
        strike(line, DONE),
        of(Call::Start(long_deck(DECK_BYTES)), DONE),
        add("22", no(2, 0)),
        take(DONE),
        of(Call::Start(broken(DECK_BYTES + 1)), no(2, 0)),
        take(no(1, 0)),
    ]
}

fn most_axioms() -> Vec<Called> {
    let most = u32::try_from(AXIOMS).expect("1,024");
    let all = ["0 0 0 1 3"].into_iter().chain(vec!["28 0"; AXIOMS - 1]);
    let deck = all.collect::<Vec<&str>>().join(";");
    let next = u64::from(most) + 2;
    vec![
        start(&deck, DONE),
        add("28 1", DONE),
        add("28 0", no(4, next)),
        add("28 2", no(4, next)),
        add("28", no(3, next)),
        take_with(0, no(12, 2)),
        strike(2, DONE),
        add("28 2", no(5, next - 1)),
        add("28 0", DONE),
        strike(most + 1, DONE),
        strike(most + 1, no(15, 0)),
        start(&format!("{deck};28 0;28 0"), no(4, next)),
        strike(2, no(1, 0)),
    ]
}

fn down_to_none() -> Vec<Called> {
    vec![
        start("0 3 0 1 3; 3 0; 3 1; 3 2; 21 0 1; 21 1 2; 35 0", DONE),
        take(DONE),
        strike(7, DONE),
        strike(5, DONE),
        strike(5, DONE),
        strike(5, no(15, 0)),
        strike(4, no(15, 0)),
        take_with(0, DONE),
        add("3 0", no(3, 5)),
        add("21 1 0", DONE),
        take_with(1, DONE),
        take_with(0, no(12, 5)),
        add("21 0 1", DONE),
        strike(6, DONE),
        strike(5, DONE),
        take_with(0, DONE),
    ]
}

fn lines_move_up() -> Vec<Called> {
    vec![
        start(
            "0 2 0 1 3; 14 1; 3 0; 3 1; 21 0 1; 23 0 1; 28 0; 21 1 0",
            DONE,
        ),
        strike(5, DONE),
        take_with(2, no(12, 7)),
        strike(6, DONE),
        take_with(1, no(12, 6)),
        strike(6, DONE),
        take_with(1, DONE),
        strike(6, no(15, 0)),
        add("21 1 0", DONE),
        take_with(1, no(12, 6)),
        strike(5, DONE),
        take_with(0, no(12, 5)),
    ]
}

/// Key marks and concepts would still fit into the deck, but not into a session.
fn without_axioms() -> Vec<Called> {
    vec![
        start("0 4 1 1 3; 14 3; 3 0", DONE),
        take_with(0, DONE),
        add("3 1", no(3, 4)),
        add("9 0 0", no(3, 4)),
        add("1", no(3, 4)),
        add("14 2", no(3, 4)),
        add("0 4 1 1 3", no(3, 4)),
        add("3 0", no(3, 4)),
        add("7", no(3, 4)),
        strike(1, no(15, 0)),
        strike(2, no(15, 0)),
        strike(3, no(15, 0)),
        strike(4, no(15, 0)),
        add("36 0 0", DONE),
        strike(4, DONE),
    ]
}

fn header_alone() -> Vec<Called> {
    vec![
        start("0 0 0 0 0", DONE),
        take_with(0, DONE),
        add("21 0 0", no(5, 2)),
        add("28 0", no(5, 2)),
        add("22", DONE),
        add("31", DONE),
        add("34", DONE),
        add("14 0", no(3, 5)),
        options(OPTIONS, DONE),
        options(OPTIONS + 1, no(4, 1)),
        strike(1, no(15, 0)),
        strike(3, DONE),
        take(DONE),
        start(&format!("0 4096 4096 1024 {OPTIONS}"), DONE),
        options(0, DONE),
        take_with(0, DONE),
        start("0 4097 0 0 0", no(4, 1)),
        options(0, no(1, 0)),
    ]
}

/// r1 is followed to the reflexive r2 with option 8, and unfolding gives one clause more.
fn followed() -> Vec<Called> {
    vec![
        start("0 2 0 3 8; 3 0; 3 1; 9 4 0; 32 0 2; 32 4 0; 35 2", DONE),
        add("21 2 1", DONE),
        take_with(2, DONE),
        take_with(1, no(12, 0)),
        options(0, DONE),
        take_with(1, DONE),
        options(8, DONE),
        strike(6, DONE),
        take_with(1, DONE),
        add("32 4 0", DONE),
        take_with(2, DONE),
        options(15, DONE),
        take_with(1, no(12, 0)),
    ]
}

/// A limit on a compound: with option 4 it gives one clause more.
fn options_change() -> Vec<Called> {
    let limit = "0 7 0 2 3; 3 2; 3 3; 3 6; 7 0 2; 12 1 3 3; 21 1 4";
    vec![
        start(limit, DONE),
        take_with(3, DONE),
        options(7, DONE),
        take_with(3, no(12, 7)),
        take_with(4, DONE),
        options(4, DONE),
        options(OPTIONS + 1, no(4, 1)),
        options(OPTIONS + 2, no(4, 1)),
        options(10 * OPTIONS, no(4, 1)),
        options(u32::MAX, no(4, 1)),
        take_with(3, no(12, 7)),
        options(3, DONE),
        take_with(3, DONE),
        options(3, DONE),
        options(0, DONE),
        take_with(3, DONE),
    ]
}

/// Visits that double with each level: two at each of a Some and an All of the level before.
fn by_visits() -> Vec<Called> {
    let levels = (0..21).map(|level| 3 * level);
    let levels = levels.map(|last| format!("9 0 {last}; 10 0 {last}; 7 {} {}", last + 1, last + 2));
    let deck = ["0 1 0 1 3; 3 0".to_owned()].into_iter().chain(levels);
    let deck = deck.collect::<Vec<String>>().join(";");
    vec![
        start(&deck, DONE),
        add("21 0 0", DONE),
        take(DONE),
        add("21 63 0", DONE),
        take(no(10, 67)),
        strike(66, DONE),
        take(no(10, 66)),
        options(1, DONE),
        add("21 0 3", DONE),
        take(no(10, 66)),
        strike(66, DONE),
        take(DONE),
    ]
}

fn by_room() -> Vec<Called> {
    vec![
        start("0 2 0 0 3; 3 0; 3 1; 21 0 1", DONE),
        take_with(0, no(12, 4)),
        add("21 1 0", DONE),
        take_with(1, no(12, 5)),
        take_with(2, DONE),
        strike(4, DONE),
        take_with(1, DONE),
        take_with(0, no(12, 4)),
        take_with(1, DONE),
    ]
}

fn long_lists() -> Vec<Called> {
    let list = |front: &str, members: usize| format!("{front}{}", " 0".repeat(members));
    let mut calls = vec![start("0 1 0 1 3; 3 0", DONE)];
    for (line, front) in (3..).zip(["22", "23", "24 0", "27 0", "31", "34"]) {
        calls.push(add(&list(front, 129), no(4, line)));
        calls.push(add(&list(front, 128), DONE));
    }
    let undeclared = format!("{} 1", list("23", 128));
    calls.push(add(&undeclared, no(4, 9)));
    calls.push(add("24", no(3, 9)));
    calls.push(add("24 0", DONE));
    calls
}
