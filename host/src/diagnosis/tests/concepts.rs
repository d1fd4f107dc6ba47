//! Refusals 6 to 9.

use super::{assert_rows, assert_sound};

/// 3 classes and a role, then three concepts.
const BEFORE: [&[u32]; 4] = [&[0, 3, 0, 1, 0], &[3, 0], &[3, 1], &[3, 2]];

/// The next line, concept 3, is told so.
fn assert_concept(row: &[u32], number: u32, words: &str) {
    assert_rows(&[&BEFORE[..], &[row]].concat(), number, words);
}

#[test]
fn itself() {
    let rows: [(&[u32], u32); 7] = [
        (&[6, 3], 22),
        (&[7, 0, 3], 33),
        (&[8, 3, 4], 22),
        (&[9, 0, 3], 33),
        (&[10, 0, 3], 33),
        (&[11, 2, 0, 3], 44),
        (&[12, 2, 0, 3], 44),
    ];
    for (row, column) in rows {
        let words = format!(
            "line 5, column {column}: concept 3 names itself; only concepts 0 to 2 stand before it"
        );
        assert_concept(row, 6, &words);
    }
}

#[test]
fn a_later_or_missing_concept() {
    let words =
        "line 5, column 21: concept 3 names concept 17; only concepts 0 to 2 stand before it";
    assert_concept(&[6, 17], 6, words);
    let header: &[u32] = &[0, 0, 0, 0, 0];
    let words = "line 2, column 22: concept 0 names concept 1; no concept stands before it";
    assert_rows(&[header, &[6, 1], &[1]], 6, words);
    let words = "line 3, column 22: concept 1 names concept 2; only concept 0 stands before it";
    assert_rows(&[header, &[1], &[6, 2]], 6, words);
    let words = "line 2, column 22: concept 0 names itself; no concept stands before it";
    assert_rows(&[header, &[6, 0]], 6, words);
}

#[test]
fn depth() {
    let mut rows = vec![vec![0, 1, 0, 1, 0], vec![3, 0]];
    rows.extend((0..63).map(|part| vec![6, part]));
    assert_sound(&rows);
    let below = "concept 63, on line 65, has depth 64";
    let words = format!("concept 64 has depth 65, and 64 is the most; {below}");
    rows.push(vec![6, 63]);
    assert_rows(&rows, 6, &format!("line 66, column 21: {words}"));
    rows[65] = vec![7, 0, 63, 1];
    assert_rows(&rows, 6, &format!("line 66, column 32: {words}"));
}

#[test]
fn too_few_members() {
    assert_concept(&[7], 7, "line 5: an And of no member; it has at least two");
    assert_concept(
        &[8, 1],
        7,
        "line 5: an Or of one member; it has at least two",
    );
}

#[test]
fn members_that_do_not_rise() {
    let words = "line 5, column 44: member 1 after member 2; members rise, each once";
    assert_concept(&[7, 0, 2, 1], 7, words);
    let words = "line 5, column 33: member 1 stands twice; members rise, each once";
    assert_concept(&[8, 1, 1, 2], 7, words);
}

#[test]
fn members_that_may_not_be() {
    let header: &[u32] = &[0, 2, 0, 0, 0];
    let rows: [&[u32]; 7] = [header, &[3, 0], &[3, 1], &[1], &[2], &[7, 0, 1], &[8, 0, 1]];
    let cases: [(&[u32], &str); 6] = [
        (
            &[7, 0, 2],
            "member 2 is Top, on line 4; neither Top nor Bot is a member",
        ),
        (
            &[7, 0, 3],
            "member 3 is Bot, on line 5; neither Top nor Bot is a member",
        ),
        (
            &[8, 0, 2],
            "member 2 is Top, on line 4; neither Top nor Bot is a member",
        ),
        (
            &[8, 0, 3],
            "member 3 is Bot, on line 5; neither Top nor Bot is a member",
        ),
        (
            &[7, 0, 4],
            "member 4 is an And too, on line 6; name its members instead",
        ),
        (
            &[8, 0, 5],
            "member 5 is an Or too, on line 7; name its members instead",
        ),
    ];
    for (row, words) in cases {
        let words = format!("line 8, column 33: {words}");
        assert_rows(&[&rows[..], &[row]].concat(), 7, &words);
    }
    assert_sound(&[&rows[..], &[&[7, 0, 5], &[8, 0, 4]]].concat());
}

#[test]
fn repeats() {
    assert_concept(&[3, 1], 8, "line 5: repeats line 3; use its concept, 1");
    let list: &[u32] = &[7, 0, 1, 2];
    let rows = [&BEFORE[..], &[list, &[8, 0, 1, 2], list]].concat();
    assert_rows(&rows, 8, "line 7: repeats line 5; use its concept, 3");
}

/// A line that differs in one number, or in its kind, is no repeat; nor is an axiom.
#[test]
fn no_repeats() {
    let others: [&[u32]; 9] = [
        &[7, 0, 1],
        &[8, 0, 1],
        &[9, 0, 0],
        &[9, 1, 0],
        &[10, 0, 0],
        &[11, 1, 0, 0],
        &[11, 2, 0, 0],
        &[12, 1, 0, 0],
        &[12, 1, 1, 0],
    ];
    assert_sound(&[&BEFORE[..], &others, &[&[21, 0, 1], &[21, 0, 1]]].concat());
}

#[test]
fn the_bound_of_a_max() {
    let words = "line 5, column 13: a Max with the bound 4294967295; 4294967294 is the largest";
    assert_concept(&[12, u32::MAX, 0, 0], 9, words);
    assert_sound(
        &[
            &BEFORE[..],
            &[&[12, u32::MAX - 1, 0, 0], &[11, u32::MAX, 0, 0]],
        ]
        .concat(),
    );
}
