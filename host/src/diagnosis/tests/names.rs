//! Refusal 5.

use super::{assert_rows, assert_sound};

/// 3 classes, 2 individuals, 2 roles.
const HEADER: &[u32] = &[0, 3, 2, 2, 0];
const CLASS: &str = "there is no class 3; the header counts 3 classes (0 to 2)";
const INDIVIDUAL: &str = "there is no individual 2; the header counts 2 individuals (0 to 1)";
const ROLE: &str = "there is no role code 4; the header counts 2 roles (codes 0 to 3)";
const CONCEPT: &str = "there is no concept 2; the deck has 2 concepts (0 to 1)";

/// What follows the kind, at the largest that is there, then for each number that can be beyond the value and the words.
type Case = (u32, &'static [u32], &'static [Option<(u32, &'static str)>]);

const C: Option<(u32, &str)> = Some((3, CLASS));
const I: Option<(u32, &str)> = Some((2, INDIVIDUAL));
const R: Option<(u32, &str)> = Some((4, ROLE));
const P: Option<(u32, &str)> = Some((2, CONCEPT));

const BEFORE_THE_AXIOMS: [Case; 9] = [
    (14, &[2], &[C]),
    (3, &[2], &[C]),
    (4, &[1], &[I]),
    (5, &[3], &[R]),
    (9, &[3, 1], &[R]),
    (10, &[3, 1], &[R]),
    (11, &[u32::MAX, 3, 1], &[None, R]),
    (12, &[u32::MAX - 1, 3, 1], &[None, R]),
    (6, &[1], &[]),
];

const AXIOMS: [Case; 16] = [
    (21, &[1, 1], &[P, P]),
    (22, &[1, 0, 1], &[P, P, P]),
    (23, &[1, 1], &[P, P]),
    (24, &[2, 1, 1], &[C, P, P]),
    (25, &[3, 1], &[R, P]),
    (26, &[3, 1], &[R, P]),
    (27, &[3, 3, 3], &[R, R, R]),
    (28, &[3], &[R]),
    (29, &[3], &[R]),
    (30, &[3], &[R]),
    (31, &[3, 3], &[R, R]),
    (32, &[3, 3], &[R, R]),
    (33, &[3, 3], &[R, R]),
    (34, &[3, 3, 0], &[R, R, R]),
    (35, &[3], &[R]),
    (36, &[1, 1], &[P, I]),
];

/// The line, sound and with each of its numbers beyond, behind these rows.
fn assert_case(before: &[&[u32]], (kind, numbers, beyond): Case) {
    let row = [&[kind], numbers].concat();
    assert_sound(&[before, &[row.as_slice()]].concat());
    let line = before.len() + 1;
    for (place, case) in (1..).zip(beyond) {
        let Some((value, words)) = *case else {
            continue;
        };
        let mut row = row.clone();
        row[place] = value;
        let words = format!("line {line}, column {}: {words}", 11 * (place + 1));
        assert_rows(&[before, &[row.as_slice()]].concat(), 5, &words);
    }
}

#[test]
fn every_name_of_a_key_mark_or_concept() {
    for case in BEFORE_THE_AXIOMS {
        let before: &[&[u32]] = if case.0 == 14 {
            &[HEADER]
        } else {
            &[HEADER, &[1], &[2]]
        };
        assert_case(before, case);
    }
}

#[test]
fn every_name_of_an_axiom() {
    for case in AXIOMS {
        assert_case(&[HEADER, &[1], &[2]], case);
    }
}

#[test]
fn inverse_codes_and_larger_numbers() {
    let words =
        "line 2, column 22: there is no role code 5; the header counts 2 roles (codes 0 to 3)";
    assert_rows(&[HEADER, &[28, 5]], 5, words);
    let words = "line 2, column 13: there is no role code 4294967295; the header counts 2 roles (codes 0 to 3)";
    assert_rows(&[HEADER, &[28, u32::MAX]], 5, words);
}

#[test]
fn none_or_one() {
    let none: &[u32] = &[0, 0, 0, 0, 0];
    let cases: [(&[u32], &str); 4] = [
        (&[14, 0], "class 0; the header counts no class"),
        (&[4, 0], "individual 0; the header counts no individual"),
        (&[28, 0], "role code 0; the header counts no role"),
        (&[22, 0], "concept 0; the deck has no concept"),
    ];
    for (row, words) in cases {
        assert_rows(
            &[none, row],
            5,
            &format!("line 2, column 22: there is no {words}"),
        );
    }
    let one: &[u32] = &[0, 1, 1, 1, 0];
    let cases: [(&[u32], &str); 4] = [
        (&[14, 1], "class 1; the header counts 1 class (0)"),
        (&[4, 1], "individual 1; the header counts 1 individual (0)"),
        (
            &[28, 2],
            "role code 2; the header counts 1 role (codes 0 and 1)",
        ),
        (&[22, 1], "concept 1; the deck has 1 concept (0)"),
    ];
    for (row, words) in cases {
        let rows: &[&[u32]] = if row[0] == 22 {
            &[one, &[1], row]
        } else {
            &[one, row]
        };
        let line = rows.len();
        assert_rows(
            rows,
            5,
            &format!("line {line}, column 22: there is no {words}"),
        );
    }
}
