//! States written by hand, each with what is told of it.

use std::fmt::Write;

use super::{Counts, diagnose};

/// Three classes, two individuals (classes 3 and 4), two roles, two fresh classes (5 and 6).
const COUNTS: Counts = Counts {
    classes: 3,
    individuals: 2,
    roles: 2,
    fresh: 2,
};

fn text(rows: &[&[u32]]) -> Vec<u8> {
    let mut text = String::new();
    for row in rows {
        for number in *row {
            write!(text, "{number:11}").expect("a text takes all");
        }
        text.push('\n');
    }
    text.into_bytes()
}

/// What is told of a state.
fn told(counts: Counts, state: &[u8]) -> Option<String> {
    let told = diagnose(counts, state)?;
    assert_eq!(told.number, 13);
    Some(told.to_string())
}

/// The line behind `50 4` is told with these words.
fn assert_line(row: &[u32], words: &str) {
    assert_rows(&[&[50, 4], row], &format!("line 2, column {words}"));
}

fn assert_rows(rows: &[&[u32]], words: &str) {
    assert_eq!(told(COUNTS, &text(rows)).as_deref(), Some(words));
}

#[test]
fn good_states() {
    let rows: [&[u32]; 9] = [
        &[50, 4],
        &[51, 0],
        &[51, 2, 0, 3],
        &[51, 5, 1],
        &[51, 6, 0, 1, 2, 3],
        &[52, 0],
        &[52, 1, 0, 0, 0, 3, 2, 1],
        &[53, 0, 3],
        &[53, 1, 3],
    ];
    assert_eq!(told(COUNTS, &text(&rows)), None);
    let counts = Counts::default();
    for size in [1, 64] {
        assert_eq!(told(counts, &text(&[&[50, size]])), None);
    }
}

#[test]
fn the_first_line() {
    let first = "the first line is 50 and the number of elements, 1 to 64";
    assert_eq!(
        told(COUNTS, b"").as_deref(),
        Some(&*format!("line 1: the state is empty; {first}"))
    );
    assert_rows(&[&[51, 0]], &format!("line 1, column 10: kind 51; {first}"));
    assert_rows(
        &[&[50]],
        "line 1: the number of elements is missing behind 50",
    );
    assert_rows(
        &[&[50, 3, 0]],
        "line 1, column 33: a line 50 has one number behind it",
    );
    assert_rows(
        &[&[50, 0]],
        "line 1, column 22: 0 elements; a state has 1 to 64",
    );
    assert_rows(
        &[&[50, 65]],
        "line 1, column 21: 65 elements; a state has 1 to 64",
    );
}

#[test]
fn kinds_and_their_order() {
    assert_line(
        &[50, 4],
        "10: a second line 50; a state has one, its first line",
    );
    let kinds = "here; the kinds are 51 (class), 52 (role) and 53 (individual)";
    assert_line(&[54, 0], &format!("10: there is no kind 54 {kinds}"));
    assert_line(&[0], &format!("11: there is no kind 0 {kinds}"));
    let rows: [&[u32]; 3] = [&[50, 4], &[52, 1], &[51, 0]];
    assert_rows(
        &rows,
        "line 3, column 10: kind 51 after kind 52; lines stand by kind",
    );
    assert_rows(
        &[&[50, 4], &[52]],
        "line 2: kind 52 without the role that it is of",
    );
}

#[test]
fn ids_and_their_order() {
    assert_rows(
        &[&[50, 4], &[51, 1], &[51, 1, 0]],
        "line 3, column 22: a second line of class 1; each has one at most",
    );
    assert_rows(
        &[&[50, 4], &[53, 1, 0], &[53, 0, 0]],
        "line 3, column 22: individual 0 after individual 1; lines of a kind stand by id",
    );
    assert_line(
        &[51, 4, 0],
        "22: class 4 is that of individual 1 and has no line: it holds the element of the individual's line 53",
    );
    assert_line(
        &[51, 7],
        "22: there is no class 7; the deck's header counts 3 classes (0 to 2), and its run has 2 fresh ones (5 to 6)",
    );
    assert_line(
        &[52, 2],
        "22: there is no role 2; the deck's header counts 2 roles (0 to 1), named here by id and not by code",
    );
    assert_line(
        &[53, 2, 0],
        "22: there is no individual 2; the deck's header counts 2 individuals (0 to 1)",
    );
    let none = Counts::default();
    assert_eq!(
        told(none, &text(&[&[50, 1], &[51, 0]])).as_deref(),
        Some(
            "line 2, column 22: there is no class 0; the deck's header counts no class, and its run has no fresh one"
        )
    );
}

#[test]
fn elements_and_pairs() {
    assert_line(
        &[51, 0, 1, 4],
        "44: there is no element 4; the state has 4 (0 to 3)",
    );
    assert_line(
        &[52, 0, 0, 1, u32::MAX, 0],
        "46: there is no element 4294967295; the state has 4 (0 to 3)",
    );
    assert_line(
        &[51, 0, 1, 1],
        "44: element 1 stands twice; elements rise, each once",
    );
    assert_line(
        &[51, 0, 0, 2, 1],
        "55: element 1 after element 2; elements rise, each once",
    );
    let order = "pairs rise by their first element, then by their second, each once";
    assert_line(
        &[52, 0, 1, 2, 1, 2],
        &format!("55: the pair 1 2 stands twice; {order}"),
    );
    assert_line(
        &[52, 0, 0, 0, 1, 2, 1, 1],
        &format!("77: the pair 1 1 after 1 2; {order}"),
    );
    assert_line(
        &[53, 0, 1, 2],
        "44: an individual is one element, and here are more",
    );
    for (row, words) in [
        (
            &[52, 0, 1][..],
            "an odd number of elements; a role has pairs",
        ),
        (&[53, 0], "the individual's element is missing"),
    ] {
        assert_rows(&[&[50, 4], row], &format!("line 2: {words}"));
    }
}

#[test]
fn an_individual_without_its_line() {
    for (rows, missing) in [
        (&[&[50, 4][..]][..], 0),
        (&[&[50, 4], &[53, 0, 0]], 1),
        (&[&[50, 4], &[53, 1, 0]], 0),
    ] {
        let told = diagnose(COUNTS, &text(rows)).expect("a diagnosis");
        assert_eq!((told.line, told.column), (0, None));
        assert_eq!(
            told.to_string(),
            format!("individual {missing} has no line 53; each individual has one")
        );
    }
}

#[test]
fn columns_are_a_decks() {
    let state = b"         50          4\n         51          0          x\n";
    assert_eq!(
        told(COUNTS, state).as_deref(),
        Some("line 2, column 33: the character 'x'; a line has digits and spaces alone")
    );
    assert_eq!(
        told(COUNTS, b"         50          4").as_deref(),
        Some(
            "line 1, column 23: the state ends without a line feed; each line ends with one, the last one too"
        )
    );
    assert_eq!(
        told(COUNTS, b"\xef\xbb\xbf         50          4\n").as_deref(),
        Some("line 1, column 1: a byte order mark; save the state as ASCII, without one")
    );
    assert_eq!(
        told(COUNTS, b"\n").as_deref(),
        Some("line 1: an empty line; each line begins with its kind")
    );
}
