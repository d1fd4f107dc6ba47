//! Decks for the tests.
#![allow(dead_code)]

use std::fmt::Write;

use gorvask::Clauses;

/// The bytes of a deck with these rows of numbers.
pub fn deck(rows: &[Vec<u32>]) -> Vec<u8> {
    let mut text = String::new();
    for row in rows {
        for number in row {
            write!(text, "{number:11}").expect("a text takes all");
        }
        text.push('\n');
    }
    text.into_bytes()
}

/// A row of numbers in their columns.
pub fn row(numbers: &[u32]) -> String {
    String::from_utf8(deck(&[numbers.to_vec()])).expect("a text")
}

/// Document 01's worked deck: A0 below Some r0 A1.
pub fn worked() -> Vec<u8> {
    deck(&[
        vec![0, 3, 0, 1, 3],
        vec![3, 0],
        vec![3, 1],
        vec![9, 0, 1],
        vec![21, 0, 2],
    ])
}

/// So many equivalent classes: a clause of two atoms for each of them under each other.
pub fn equivalent(classes: u32, times: usize) -> Vec<u8> {
    let mut rows = vec![vec![0, classes, 0, 0, 0]];
    rows.extend((0..classes).map(|class| vec![3, class]));
    let all: Vec<u32> = std::iter::once(22).chain(0..classes).collect();
    rows.extend(vec![all; times]);
    deck(&rows)
}

/// A below some r (B and C): one fresh class, 3. Its last clause, 2, is A(x) → some r 3 (x).
pub fn with_fresh() -> Vec<u8> {
    deck(&[
        vec![0, 3, 0, 1, 3],
        vec![3, 0],
        vec![3, 1],
        vec![3, 2],
        vec![7, 1, 2],
        vec![9, 0, 3],
        vec![21, 0, 4],
    ])
}

/// A state of [`with_fresh`]'s deck in which its axiom holds, with these rows for the fresh class.
pub fn with_fresh_state(fresh: &[Vec<u32>]) -> Vec<u8> {
    let mut rows = vec![
        vec![50, 2],
        vec![51, 0, 0],
        vec![51, 1, 1],
        vec![51, 2, 0, 1],
    ];
    rows.extend_from_slice(fresh);
    rows.push(vec![52, 0, 0, 1]);
    deck(&rows)
}

/// A clause of five variables: some r of some r of some r of some r A below A.
pub fn wide() -> Vec<u8> {
    deck(&[
        vec![0, 1, 0, 1, 2],
        vec![3, 0],
        vec![9, 0, 0],
        vec![9, 0, 1],
        vec![9, 0, 2],
        vec![9, 0, 3],
        vec![21, 4, 0],
    ])
}

/// A deck for each refusal from 2 to 12, with its line.
pub fn refused() -> Vec<(u32, Option<u32>, Vec<u8>)> {
    let header = || vec![0, 3, 1, 200, 3];
    let with = |rows: &[&[u32]]| {
        let rows = rows.iter().map(|row| row.to_vec());
        deck(&std::iter::once(header()).chain(rows).collect::<Vec<_>>())
    };
    vec![
        (2, Some(1), b"0 3 0 1 3\n".to_vec()),
        (2, None, vec![b' '; 65_537]),
        (3, Some(1), Vec::new()),
        (3, Some(2), with(&[&[13, 0]])),
        (4, Some(1), deck(&[vec![0, 4_097, 0, 0, 0]])),
        (5, Some(3), with(&[&[3, 2], &[3, 3]])),
        (6, Some(2), with(&[&[6, 0]])),
        (7, Some(3), with(&[&[3, 0], &[7, 0]])),
        (8, Some(4), with(&[&[3, 0], &[3, 1], &[3, 0]])),
        (9, Some(3), with(&[&[3, 0], &[12, u32::MAX, 0, 0]])),
        many_visits(),
        full_pool(),
        long_body(),
    ]
}

/// Each level names the one below twice.
pub fn many_visits() -> (u32, Option<u32>, Vec<u8>) {
    let mut rows = vec![vec![0, 1, 0, 2, 0], vec![3, 0]];
    for level in 0..20 {
        let below = 3 * level;
        rows.push(vec![9, 0, below]);
        rows.push(vec![9, 2, below]);
        rows.push(vec![7, below + 1, below + 2]);
    }
    rows.push(vec![21, 0, 60]);
    (10, Some(63), deck(&rows))
}

/// Ands whose normal form has 129 members, 127 of them.
fn full_pool() -> (u32, Option<u32>, Vec<u8>) {
    let mut rows = vec![vec![0, 128, 0, 0, 0]];
    rows.extend((0..128).map(|class| vec![3, class]));
    rows.push(std::iter::once(8).chain(0..128).collect());
    rows.push(vec![6, 128]);
    rows.extend((0..127).map(|class| vec![7, class, 129]));
    // 128 + 127 * 2 members are the lines', 128 the complement's; of the Ands of 129 there is room for 123.
    let axioms = u32::try_from(rows.len()).expect("a small deck") + 1;
    rows.extend((0..127).map(|class| vec![21, class, 130 + class]));
    (11, Some(axioms + 123), deck(&rows))
}

/// An antecedent of 128 Somes with three atoms each.
fn long_body() -> (u32, Option<u32>, Vec<u8>) {
    let mut rows = vec![vec![0, 2, 0, 128, 0], vec![3, 0], vec![3, 1], vec![7, 0, 1]];
    rows.extend((0..128).map(|role| vec![9, 2 * role, 2]));
    rows.push(std::iter::once(7).chain(3..131).collect());
    rows.push(vec![21, 131, 0]);
    (12, Some(134), deck(&rows))
}

/// The clauses in logical notation.
pub fn texts(clauses: Clauses<'_>) -> Vec<String> {
    clauses
        .into_iter()
        .map(|clause| clause.to_string())
        .collect()
}
