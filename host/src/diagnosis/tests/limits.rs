//! Refusal 4.

use super::{assert_rows, assert_sound};

#[test]
fn the_header() {
    assert_sound(&[&[0, 4_096, 4_096, 1_024, 7]]);
    let cases: [([u32; 5], &str); 4] = [
        (
            [0, 4_097, 0, 0, 0],
            "column 19: classes 4097; 4096 is the most",
        ),
        (
            [0, 0, 4_097, 0, 0],
            "column 30: individuals 4097; 4096 is the most",
        ),
        (
            [0, 0, 0, 1_025, 0],
            "column 41: roles 1025; 1024 is the most",
        ),
        ([0, 0, 0, 0, 16], "column 54: options 16; 15 is the most"),
    ];
    for (header, words) in cases {
        assert_rows(&[&header], 4, &format!("line 1, {words}"));
    }
}

/// A line with so many zeros behind these numbers.
fn zeros(front: &[u32], count: usize) -> Vec<u32> {
    [front, vec![0; count].as_slice()].concat()
}

#[test]
fn lists() {
    let header: &[u32] = &[0, 1, 0, 1, 0];
    for kind in [22, 23, 31, 34] {
        assert_sound(&[header, &[3, 0], &zeros(&[kind], 128)]);
        let words = "line 3, column 1430: a list of 130 entries; 128 are the most";
        assert_rows(&[header, &[3, 0], &zeros(&[kind], 130)], 4, words);
    }
    for kind in [24, 27] {
        assert_sound(&[header, &[3, 0], &zeros(&[kind, 0], 128)]);
        let words = "line 3, column 1441: a list of 129 entries; 128 are the most";
        assert_rows(&[header, &[3, 0], &zeros(&[kind, 0], 129)], 4, words);
    }
    for kind in [7, 8] {
        let words = "line 3, column 1430: a list of 129 entries; 128 are the most";
        assert_rows(&[header, &[3, 0], &zeros(&[kind], 129)], 4, words);
    }
}

#[test]
fn concept_lines() {
    let mut rows = vec![vec![0, 2_000, 0, 0, 0]];
    rows.extend((0..1_024).map(|class| vec![3, class]));
    assert_sound(&rows);
    rows.push(vec![3, 1_024]);
    assert_rows(&rows, 4, "line 1026: 1025 concepts; 1024 are the most");
}

#[test]
fn axiom_lines() {
    let mut rows = vec![vec![28, 0]; 1_025];
    rows[0] = vec![0, 0, 0, 1, 0];
    assert_sound(&rows);
    rows.push(vec![28, 0]);
    assert_rows(&rows, 4, "line 1026: 1025 axioms; 1024 are the most");
}

#[test]
fn key_marks_have_no_limit() {
    let mut rows = vec![vec![14, 0]; 2_000];
    rows[0] = vec![0, 1, 0, 0, 0];
    assert_sound(&rows);
}
