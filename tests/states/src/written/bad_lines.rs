//! Each way of a bad line, and lines that are good though they look bad.

use super::{Written, lines};

/// Classes 0 and 1, individuals 0 and 1, roles 0 and 1; the individuals' classes are 2 and 3, the run's one fresh class is 4.
const DECK: &str = "0 2 2 2 2; 3 0; 3 1; 7 0 1; 9 0 2; 21 0 3";

/// The line that is bad, and the state.
const BAD: [(&str, u32, &str); 37] = [
    ("no line 50", 1, "51 0 0; 53 0 0; 53 1 0"),
    ("53 before 50", 1, "53 0 0; 50 2"),
    ("50 twice", 2, "50 2; 50 2; 53 0 0; 53 1 0"),
    ("50 at the end", 4, "50 2; 53 0 0; 53 1 0; 50 2"),
    ("no count", 1, "50; 53 0 0; 53 1 0"),
    ("two counts", 1, "50 2 2; 53 0 0; 53 1 0"),
    ("a count of 0", 1, "50 0"),
    ("a count of 65", 1, "50 65; 53 0 0; 53 1 0"),
    ("the greatest count", 1, "50 4294967295; 53 0 0; 53 1 0"),
    ("an unknown kind", 2, "50 2; 54 0 0; 53 0 0; 53 1 0"),
    ("a deck's line", 2, "50 2; 21 0 0"),
    ("51 without an id", 2, "50 2; 51; 53 0 0; 53 1 0"),
    ("51 behind 52", 3, "50 2; 52 0 0 0; 51 0 0; 53 0 0; 53 1 0"),
    ("52 behind 53", 3, "50 2; 53 0 0; 52 0 0 0; 53 1 0"),
    ("51 behind 53", 4, "50 2; 53 0 0; 53 1 0; 51 0 0"),
    ("classes falling", 3, "50 2; 51 1; 51 0; 53 0 0; 53 1 0"),
    ("a class twice", 3, "50 2; 51 1 0; 51 1 1; 53 0 0; 53 1 0"),
    ("a role twice", 3, "50 2; 52 1; 52 1; 53 0 0; 53 1 0"),
    ("an individual twice", 4, "50 2; 53 0 0; 53 1 0; 53 1 0"),
    (
        "an element too large in 51",
        2,
        "50 2; 51 0 0 2; 53 0 0; 53 1 0",
    ),
    (
        "an element too large in 52",
        2,
        "50 2; 52 0 0 2; 53 0 0; 53 1 0",
    ),
    ("an element too large in 53", 3, "50 2; 53 0 0; 53 1 2"),
    ("elements falling", 2, "50 2; 51 0 1 0; 53 0 0; 53 1 0"),
    ("an element twice", 2, "50 2; 51 0 1 1; 53 0 0; 53 1 0"),
    ("an individual's class", 2, "50 2; 51 2 0; 53 0 0; 53 1 0"),
    (
        "the last individual's class",
        3,
        "50 2; 51 1 0; 51 3 0; 53 0 0; 53 1 0",
    ),
    (
        "a class beyond the fresh ones",
        2,
        "50 2; 51 5 0; 53 0 0; 53 1 0",
    ),
    (
        "the greatest class",
        2,
        "50 2; 51 4294967295; 53 0 0; 53 1 0",
    ),
    (
        "a role's code",
        3,
        "50 2; 52 0 0 0; 52 2 0 0; 53 0 0; 53 1 0",
    ),
    ("half a pair", 2, "50 2; 52 0 0; 53 0 0; 53 1 0"),
    ("a pair and a half", 2, "50 2; 52 0 0 0 1; 53 0 0; 53 1 0"),
    (
        "pairs falling by the first",
        2,
        "50 2; 52 0 1 0 0 1; 53 0 0; 53 1 0",
    ),
    (
        "pairs falling by the second",
        2,
        "50 2; 52 0 1 1 1 0; 53 0 0; 53 1 0",
    ),
    ("a pair twice", 2, "50 2; 52 0 0 1 0 1; 53 0 0; 53 1 0"),
    (
        "an undeclared individual",
        4,
        "50 2; 53 0 0; 53 1 0; 53 2 0",
    ),
    ("an individual without an element", 2, "50 2; 53 0; 53 1 0"),
    (
        "an individual with two elements",
        3,
        "50 2; 53 0 0; 53 1 0 1",
    ),
];

/// No line is bad, and an individual has none.
const MISSING: [(&str, &str); 3] = [
    ("53 missing", "50 2"),
    ("the first 53 missing", "50 2; 51 0 0; 53 1 0"),
    ("the last 53 missing", "50 2; 53 0 0"),
];

/// Bytes in place of the second line.
const BROKEN: [(&str, &[u8]); 9] = [
    ("an empty line", b"\n"),
    ("a line of spaces", b"           \n"),
    ("a short column", b"         51         0\n"),
    ("a long column", b"         51           0\n"),
    ("a leading zero", b"         51         00\n"),
    ("a letter", b"         51          x\n"),
    ("a number too large", b"         51 4294967296\n"),
    ("eleven digits", b"         5110000000000\n"),
    ("a return", b"         51          0\r\n"),
];

pub fn all() -> Vec<Written> {
    let deck = lines(DECK);
    let bad = BAD.map(|(name, line, state)| Written::refused(name, &deck, &lines(state), 13, line));
    let missing = MISSING.map(|(name, state)| Written::refused(name, &deck, &lines(state), 13, 0));
    let broken = BROKEN.map(|(name, line)| {
        let state = [&lines("50 2"), line, &lines("53 0 0; 53 1 0")].concat();
        Written::refused(name, &deck, &state, 13, 2)
    });
    [&bad[..], &missing, &broken, &ends(), &good()].concat()
}

/// The last byte.
fn ends() -> Vec<Written> {
    let deck = lines(DECK);
    let state = lines("50 2; 53 0 0; 53 1 0");
    let cut = &state[..state.len() - 1];
    let last = lines("50 2; 53 0 0");
    let refused = |name: &str, state: &[u8], line| Written::refused(name, &deck, state, 13, line);
    vec![
        refused("no line feed at the end", cut, 3),
        refused("no line feed, and a 53 missing", &last[..last.len() - 1], 2),
        refused(
            "a byte behind the last line",
            &[&state, &b" "[..]].concat(),
            4,
        ),
        refused(
            "a line feed behind the last line",
            &[&state, &b"\n"[..]].concat(),
            4,
        ),
        refused(
            "a zero byte behind the last line",
            &[&state, &[0][..]].concat(),
            4,
        ),
        refused("a line feed alone", b"\n", 1),
        refused("no line feed in line 1", &lines("50 2")[..22], 1),
    ]
}

/// Good lines: empty lists, and what a deck's limits would not take.
fn good() -> Vec<Written> {
    let deck = lines(DECK);
    let told = |name: &str, state: &str| Written::new(name, &deck, &lines(state), &[0], &[0]);
    let pairs: String = (0..64)
        .flat_map(|x| (0..64).map(move |y| format!(" {x} {y}")))
        .collect();
    vec![
        told(
            "empty lists",
            "50 1; 51 0; 51 1; 51 4; 52 0; 52 1; 53 0 0; 53 1 0",
        ),
        told(
            "a list of 8,192",
            &format!("50 64; 52 0{pairs}; 53 0 63; 53 1 0"),
        ),
    ]
}
