//! Refusal 3.

use super::{assert_rows, assert_sound, assert_told, deck, diagnose};

const HEADER: &[u32] = &[0, 1, 1, 1, 0];

#[test]
fn the_first_line() {
    let empty = "line 1: the deck is empty; the first line is the header, kind 0";
    assert_told(b"", 3, empty);
    let other = "line 1, column 11: kind 3 (Atomic); the first line is the header, kind 0";
    assert_rows(&[&[3, 0]], 3, other);
    let unknown = "line 1, column 10: there is no kind 13; the first line is the header, kind 0";
    assert_rows(&[&[13]], 3, unknown);
}

#[test]
fn a_second_header() {
    let words = "line 2, column 11: a second header; a deck has one, its first line";
    assert_rows(&[HEADER, HEADER], 3, words);
    let words = "line 3, column 11: a second header; a deck has one, its first line";
    assert_rows(&[HEADER, &[28, 0], HEADER], 3, words);
}

#[test]
fn unknown_kinds() {
    let any = "14 (key mark), 1 to 12 (concepts) and 21 to 36 (axioms)";
    for kind in [13, 15, 20, 37] {
        let words = format!("line 2, column 10: there is no kind {kind}; the kinds here are {any}");
        assert_rows(&[HEADER, &[kind, 0]], 3, &words);
    }
    let words = format!("line 3, column 2: there is no kind 4294967295; the kinds here are {any}");
    assert_rows(&[HEADER, &[14, 0], &[u32::MAX]], 3, &words);
    let words = "line 3, column 10: there is no kind 13; the kinds here are 1 to 12 (concepts) and 21 to 36 (axioms)";
    assert_rows(&[HEADER, &[3, 0], &[13]], 3, words);
    let words = "line 3, column 10: there is no kind 13; the kinds here are 21 to 36 (axioms)";
    assert_rows(&[HEADER, &[28, 0], &[13]], 3, words);
}

#[test]
fn sections_out_of_order() {
    let rows: [&[u32]; 5] = [HEADER, &[14, 0], &[1], &[2], &[14, 0]];
    let words = "line 5, column 10: kind 14 (key mark) after the concepts, which begin on line 3; key marks stand before them";
    assert_rows(&rows, 3, words);
    let rows: [&[u32]; 5] = [HEADER, &[1], &[28, 0], &[28, 1], &[14, 0]];
    let words = "line 5, column 10: kind 14 (key mark) after the axioms, which begin on line 3; key marks stand before them";
    assert_rows(&rows, 3, words);
    let rows: [&[u32]; 3] = [HEADER, &[28, 0], &[3, 0]];
    let words = "line 3, column 11: kind 3 (Atomic) after the axioms, which begin on line 2; concepts stand before them";
    assert_rows(&rows, 3, words);
}

#[test]
fn too_few_numbers() {
    let sub = "kind 21 (SubClassOf) takes 2 numbers after the kind (sub, sup)";
    assert_rows(
        &[HEADER, &[1], &[21, 0]],
        3,
        &format!("line 3: {sub}, 1 was found"),
    );
    assert_rows(
        &[HEADER, &[1], &[21]],
        3,
        &format!("line 3: {sub}, none was found"),
    );
    let max =
        "line 2: kind 12 (Max) takes 3 numbers after the kind (bound, role, concept), 2 were found";
    assert_rows(&[HEADER, &[12, 0, 0]], 3, max);
    let not = "line 2: kind 6 (Not) takes 1 number after the kind (concept), none was found";
    assert_rows(&[HEADER, &[6]], 3, not);
    let union = "line 2: kind 24 (DisjointUnion) takes at least 1 number after the kind (class, then a list), none was found";
    assert_rows(&[HEADER, &[24]], 3, union);
    let chain = "line 2: kind 27 (chain) takes at least 1 number after the kind (sup, then a list), none was found";
    assert_rows(&[HEADER, &[27]], 3, chain);
    let header = "line 1: kind 0 (header) takes 4 numbers after the kind (classes, individuals, roles, options), 3 were found";
    assert_rows(&[&[0, 1, 1, 1]], 3, header);
}

#[test]
fn too_many_numbers() {
    let top = "line 2, column 22: kind 1 (Top) takes no number after the kind, 1 was found";
    assert_rows(&[HEADER, &[1, 0]], 3, top);
    let class =
        "line 2, column 32: kind 3 (Atomic) takes 1 number after the kind (class), 3 were found";
    assert_rows(&[HEADER, &[3, 0, 17, 0]], 3, class);
    let header = "line 1, column 66: kind 0 (header) takes 4 numbers after the kind (classes, individuals, roles, options), \
                  5 were found";
    assert_rows(&[&[0, 1, 1, 1, 0, 0]], 3, header);
}

/// Document 01's kinds with how many numbers follow.
const FIXED: [(u32, usize); 23] = [
    (14, 1),
    (1, 0),
    (2, 0),
    (3, 1),
    (4, 1),
    (5, 1),
    (6, 1),
    (9, 2),
    (10, 2),
    (11, 3),
    (12, 3),
    (21, 2),
    (25, 2),
    (26, 2),
    (28, 1),
    (29, 1),
    (30, 1),
    (32, 2),
    (33, 2),
    (35, 1),
    (36, 2),
    (24, 1),
    (27, 1),
];

/// The kinds whose line ends with a list.
const LISTS: [u32; 8] = [7, 8, 22, 23, 24, 27, 31, 34];

/// Whether a line of so many zeros behind the kind, which names a class, individual, role or concept 0, is refused by 3.
fn is_misshapen(kind: u32, numbers: usize) -> bool {
    let row = [&[kind], vec![0; numbers].as_slice()].concat();
    let before: &[&[u32]] = if kind > 20 {
        &[HEADER, &[3, 0]]
    } else {
        &[HEADER]
    };
    let rows = [before, &[row.as_slice()]].concat();
    diagnose(&deck(&rows)).is_some_and(|told| told.number == 3)
}

#[test]
fn every_kind_has_its_numbers() {
    for kind in (1..=12).chain([14]).chain(21..=36) {
        let fixed = FIXED.iter().find(|&&(fixed, _)| fixed == kind);
        let takes = fixed.map_or(0, |&(_, numbers)| numbers);
        for numbers in 0..6 {
            let is_list = LISTS.contains(&kind);
            let fits = if is_list {
                numbers >= takes
            } else {
                numbers == takes
            };
            assert_eq!(
                is_misshapen(kind, numbers),
                !fits,
                "kind {kind} and {numbers} numbers"
            );
        }
    }
}

#[test]
fn every_section_may_be_missing() {
    assert_sound(&[HEADER, &[14, 0], &[14, 0], &[1], &[28, 1]]);
    assert_sound(&[HEADER, &[14, 0], &[28, 1]]);
    assert_sound(&[HEADER, &[28, 1]]);
    assert_sound(&[HEADER, &[1]]);
    assert_sound(&[HEADER, &[22], &[23], &[24, 0], &[27, 0], &[31], &[34]]);
}
