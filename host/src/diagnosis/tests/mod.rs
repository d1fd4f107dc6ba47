//! Decks written by hand, each with what document 01 says of it.

mod concepts;
mod layout;
mod limits;
mod names;
mod session;
mod shape;

use std::fmt::Write;

use super::{Diagnosis, diagnose};

/// Document 01's worked deck: A0 below Some r0 A1.
const WORKED: [&[u32]; 5] = [&[0, 3, 0, 1, 3], &[3, 0], &[3, 1], &[9, 0, 1], &[21, 0, 2]];

/// The bytes of a deck with these rows of numbers.
fn deck(rows: &[impl AsRef<[u32]>]) -> Vec<u8> {
    let mut text = String::new();
    for row in rows {
        for number in row.as_ref() {
            write!(text, "{number:11}").expect("a text takes all");
        }
        text.push('\n');
    }
    text.into_bytes()
}

/// The diagnosis is this number with these words.
fn assert_told(deck: &[u8], number: u32, words: &str) {
    let told = diagnose(deck).expect("a diagnosis");
    assert_eq!((told.number, told.to_string().as_str()), (number, words));
}

/// The same of rows.
fn assert_rows(rows: &[impl AsRef<[u32]>], number: u32, words: &str) {
    assert_told(&deck(rows), number, words);
}

/// No line check refuses the rows.
fn assert_sound(rows: &[impl AsRef<[u32]>]) {
    assert_eq!(diagnose(&deck(rows)), None);
}

#[test]
fn a_sound_deck_has_no_diagnosis() {
    assert_sound(&WORKED);
    assert_sound(&[&[0, 0, 0, 0, 0]]);
}

#[test]
fn the_first_bad_line_is_told() {
    let rows: [&[u32]; 4] = [&[0, 1, 0, 0, 0], &[3, 0], &[3, 1], &[13]];
    assert_rows(
        &rows,
        5,
        "line 3, column 22: there is no class 1; the header counts 1 class (0)",
    );
}

/// Each last line fails several checks, and is told with the first of them.
#[test]
fn the_lowest_number_is_told() {
    let header: &[u32] = &[0, 1, 0, 1, 0];
    let long = [31; 130];
    let cases: [(&[&[u32]], u32); 7] = [
        (&[&[0, 5_000, 0, 0, 0, 0]], 3),
        (&[header, &[13, u32::MAX]], 3),
        (&[header, &long], 4),
        (&[header, &long[..5]], 5),
        (&[header, &[3, 0], &[12, u32::MAX, 2, 1]], 5),
        (&[header, &[3, 0], &[12, u32::MAX, 0, 1]], 6),
        (&[header, &[3, 0], &[7, 1]], 6),
    ];
    for (rows, number) in cases {
        let mut bytes = deck(rows);
        let told = diagnose(&bytes).expect("a diagnosis");
        assert_eq!((told.number, told.line as usize), (number, rows.len()));
        bytes.pop();
        let told = diagnose(&bytes).expect("a diagnosis");
        assert_eq!((told.number, told.line as usize), (2, rows.len()));
    }
}

#[test]
fn place_and_words_stand_apart_too() {
    let told = diagnose(&deck(&[&[0, 5000, 0, 0, 0]])).expect("a diagnosis");
    assert_eq!((told.number, told.line, told.column), (4, 1, Some(19)));
    assert_eq!(told.cause, "classes 5000; 4096 is the most");
}
