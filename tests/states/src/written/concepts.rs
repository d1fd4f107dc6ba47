//! Each kind of concept, in an axiom and in its clauses.

use super::{Written, of_deck};

/// Top is below the concept; elements 0 and 1, class 0, role 0, individual 0.
fn below(concept: &str, told: &[(&str, &str, &[u32])], clauses: &[&[u32]]) -> Vec<Written> {
    let deck = format!("0 1 1 1 2; 1; 3 0; {concept}; 21 0 2");
    let cases = told.iter().zip(clauses);
    let cases: Vec<_> = cases
        .map(|(&(name, state, axioms), &clauses)| (name, state, axioms, clauses))
        .collect();
    of_deck(&deck, &cases)
}

pub fn all() -> Vec<Written> {
    [of_one_element(), of_lists(), along(), counts(), inverse()].concat()
}

fn of_one_element() -> Vec<Written> {
    [
        of_deck(
            "0 0 0 0 2; 1; 2; 21 0 1",
            &[(
                "2 broken: a clause without variables",
                "50 3",
                &[1, 4, 0],
                &[1, 0],
            )],
        ),
        below(
            "4 0",
            &[
                ("4 held", "50 1; 53 0 0", &[0]),
                ("4 broken", "50 2; 53 0 0", &[1, 5, 1]),
            ],
            &[&[0], &[1, 0, 1]],
        ),
        below(
            "5 0",
            &[
                ("5 held", "50 2; 52 0 0 0 1 1; 53 0 0", &[0]),
                ("5 broken", "50 2; 52 0 0 0 1 0; 53 0 0", &[1, 5, 1]),
            ],
            &[&[0], &[1, 0, 1]],
        ),
        below(
            "6 1",
            &[
                ("6 held", "50 2; 53 0 0", &[0]),
                ("6 broken", "50 2; 51 0 1; 53 0 0", &[1, 5, 1]),
            ],
            &[&[0], &[1, 0, 1]],
        ),
    ]
    .concat()
}

/// Top is below the And, or the Or, of classes 0 and 1.
fn of_lists() -> Vec<Written> {
    [
        of_deck(
            "0 2 0 0 2; 1; 3 0; 3 1; 7 1 2; 21 0 3",
            &[
                ("7 held", "50 2; 51 0 0 1; 51 1 0 1", &[0], &[0]),
                (
                    "7 broken by its second member",
                    "50 2; 51 0 0 1; 51 1 0",
                    &[1, 6, 1],
                    &[1, 1, 1],
                ),
            ],
        ),
        of_deck(
            "0 2 0 0 2; 1; 3 0; 3 1; 8 1 2; 21 0 3",
            &[
                ("8 held", "50 2; 51 0 0; 51 1 1", &[0], &[0]),
                ("8 broken", "50 2; 51 0 0", &[1, 6, 1], &[1, 0, 1]),
            ],
        ),
    ]
    .concat()
}

/// Some and All along a role.
fn along() -> Vec<Written> {
    [
        below(
            "9 0 1",
            &[
                ("9 held", "50 2; 51 0 1; 52 0 0 1 1 1; 53 0 0", &[0]),
                ("9 broken", "50 2; 51 0 1; 52 0 0 1 1 0; 53 0 0", &[1, 5, 1]),
                (
                    "9 of an inverse code would hold",
                    "50 2; 51 0 1; 52 0 1 0 1 1; 53 0 0",
                    &[1, 5, 0],
                ),
            ],
            &[&[0], &[1, 0, 1], &[1, 0, 0]],
        ),
        below(
            "10 0 1",
            &[
                ("10 held", "50 2; 51 0 1; 52 0 0 1; 53 0 0", &[0]),
                (
                    "10 broken",
                    "50 2; 51 0 1; 52 0 0 1 1 0; 53 0 0",
                    &[1, 5, 1],
                ),
            ],
            &[&[0], &[1, 0, 1, 0]],
        ),
    ]
    .concat()
}

/// Counts along a role.
fn counts() -> Vec<Written> {
    [
        below(
            "11 2 0 1",
            &[
                (
                    "11 held",
                    "50 2; 51 0 0 1; 52 0 0 0 0 1 1 0 1 1; 53 0 0",
                    &[0],
                ),
                (
                    "11 broken",
                    "50 2; 51 0 1; 52 0 0 0 0 1 1 0 1 1; 53 0 0",
                    &[1, 5, 0],
                ),
            ],
            &[&[0], &[1, 0, 0]],
        ),
        below(
            "12 1 0 1",
            &[
                (
                    "12 held",
                    "50 2; 51 0 1; 52 0 0 0 0 1 1 0 1 1; 53 0 0",
                    &[0],
                ),
                (
                    "12 broken",
                    "50 2; 51 0 0 1; 52 0 0 0 1 0 1 1; 53 0 0",
                    &[1, 5, 1],
                ),
            ],
            &[&[0], &[1, 0, 1]],
        ),
    ]
    .concat()
}

fn inverse() -> Vec<Written> {
    below(
        "9 1 0",
        &[(
            "9 of an inverse code",
            "50 2; 51 2 0 1; 52 0 1 0; 53 0 0",
            &[1, 5, 1],
        )],
        &[&[1, 0, 1]],
    )
}
