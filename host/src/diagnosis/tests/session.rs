//! What a session is asked for and refuses.

use super::super::session::{diagnose_add, diagnose_options, diagnose_strike};
use super::{Diagnosis, WORKED, deck};

fn told(diagnosis: Option<Diagnosis>) -> (u32, String) {
    let told = diagnosis.expect("a diagnosis");
    (told.number, told.to_string())
}

fn assert_added(live: &[u8], text: &[u8], number: u32, words: &str) {
    assert_eq!(told(diagnose_add(live, text)), (number, words.to_owned()));
}

const RULE: &str = "what is added is one line of the kinds 21 to 36 (axioms)";

#[test]
fn what_is_done_has_no_diagnosis() {
    let live = deck(&WORKED);
    assert_eq!(diagnose_add(&live, &deck(&[[21, 0, 1]])), None);
    assert_eq!(diagnose_strike(&live, 5), None);
    assert_eq!(diagnose_options(&live, 15), None);
}

#[test]
fn no_one_line() {
    let live = deck(&WORKED);
    assert_added(&live, b"", 3, &format!("line 6: an empty text; {RULE}"));
    let two = deck(&[[21, 0, 1], [21, 1, 0]]);
    let words = format!("line 6: 34 bytes behind its line feed; {RULE}");
    assert_added(&live, &two, 3, &words);
    let mut more = deck(&[[21, 0, 1]]);
    more.push(b' ');
    let words = format!("line 6: 1 byte behind its line feed; {RULE}");
    assert_added(&live, &more, 3, &words);
    let cut = b"         21          0          1";
    let words = "line 6, column 34: the line ends without a line feed; each line ends with one, the last one too";
    assert_added(&live, cut, 2, words);
    // The columns of the first line come before what stands behind it.
    let words = "line 6: an empty line; each line begins with its kind";
    assert_added(&live, b"\n\n", 2, words);
}

#[test]
fn no_axiom() {
    for rows in [&WORKED[..], &WORKED[..4]] {
        let live = deck(rows);
        let last = rows.len() + 1;
        for (row, column, found) in [
            (&[3, 2][..], 11, "kind 3 (Atomic)"),
            (&[14, 0], 10, "kind 14 (key mark)"),
            (&[0, 3, 0, 1, 3], 11, "kind 0 (header)"),
            (&[37, 0], 10, "there is no kind 37"),
        ] {
            let words = format!("line {last}, column {column}: {found}; {RULE}");
            assert_added(&live, &deck(&[row]), 3, &words);
        }
    }
}

#[test]
fn the_checks_of_the_deck_that_comes_of_it() {
    let live = deck(&WORKED);
    let words =
        "line 6: kind 21 (SubClassOf) takes 2 numbers after the kind (sub, sup), 1 was found";
    assert_added(&live, &deck(&[[21, 0]]), 3, words);
    let words = "line 6, column 33: there is no concept 3; the deck has 3 concepts (0 to 2)";
    assert_added(&live, &deck(&[[21, 0, 3]]), 5, words);
    let mut full = live.clone();
    full.extend(deck(&vec![[28, 0]; 1_023]));
    assert_added(
        &full,
        &deck(&[[28, 0]]),
        4,
        "line 1029: 1025 axioms; 1024 are the most",
    );
    let mut long = deck(&[[0, 0, 0, 1, 0]]);
    let list: Vec<u32> = std::iter::once(31).chain([0; 128]).collect();
    long.extend(deck(&vec![list.clone(); 46]));
    let words = "the deck has 66796 bytes, 1260 more than the 65536 it may have";
    assert_added(&long, &deck(&[list]), 2, words);
}

#[test]
fn where_no_axiom_is_struck() {
    let live = deck(&WORKED);
    let axioms = "and the one axiom stands on line 5";
    for (line, found) in [
        (0, "lines are counted from 1"),
        (1, "kind 0 (header) stands there"),
        (4, "kind 9 (Some) stands there"),
        (6, "the last line is 5"),
        (u32::MAX, "the last line is 5"),
    ] {
        let words = format!("there is no axiom on line {line}: {found}, {axioms}");
        assert_eq!(told(diagnose_strike(&live, line)), (15, words));
    }
    let none = told(diagnose_strike(&deck(&WORKED[..4]), 5)).1;
    assert_eq!(
        none,
        "there is no axiom on line 5: the last line is 4, and the deck has no axiom"
    );
    let mut two = live.clone();
    two.extend(deck(&[[28, 0]]));
    let axioms = told(diagnose_strike(&two, 7)).1;
    assert!(axioms.ends_with("and the axioms stand on lines 5 to 6"));
}

#[test]
fn options_past_the_limit() {
    let live = deck(&WORKED);
    for (options, column) in [(16, 54), (4_294_967_295, 46)] {
        let words = format!("line 1, column {column}: options {options}; 15 is the most");
        assert_eq!(told(diagnose_options(&live, options)), (4, words));
    }
}

#[test]
fn a_deck_that_is_none_has_no_diagnosis() {
    let bad = deck(&[&[0, 1, 0, 0, 0][..], &[3, 1]]);
    assert_eq!(diagnose_add(&bad, b""), None);
    assert_eq!(diagnose_strike(&bad, 1), None);
    assert_eq!(diagnose_options(b"", 9), None);
}
