//! Inverse codes: which way a pair is shown.

use super::{Written, of_deck};

pub fn all() -> Vec<Written> {
    [
        inverse(),
        inverse_of_itself(),
        beside_inverse(),
        others(),
        transitive(),
    ]
    .concat()
}

/// 32.
fn inverse() -> Vec<Written> {
    [
        of_deck(
            "0 0 0 2 2; 32 1 2",
            &[
                (
                    "32 with an inverse code held",
                    "50 2; 52 0 0 1; 52 1 0 1",
                    &[0],
                    &[0],
                ),
                (
                    "32 with an inverse code and its pair alone",
                    "50 2; 52 0 0 1",
                    &[1, 2, 1, 0],
                    &[0],
                ),
                (
                    "32 with an inverse code and the second's pair alone",
                    "50 2; 52 1 0 1",
                    &[1, 2, 1, 0],
                    &[0],
                ),
            ],
        ),
        of_deck(
            "0 0 0 2 2; 32 1 3",
            &[(
                "32 with two inverse codes and the second's pair alone",
                "50 3; 52 1 1 2",
                &[1, 2, 1, 2],
                &[0],
            )],
        ),
    ]
    .concat()
}

fn inverse_of_itself() -> Vec<Written> {
    of_deck(
        "0 0 0 1 2; 32 0 0",
        &[
            (
                "32 of a role with itself held",
                "50 3; 52 0 0 2 1 1 2 0",
                &[0],
                &[0],
            ),
            (
                "32 of a role with itself broken",
                "50 3; 52 0 2 1",
                &[1, 2, 1, 2],
                &[0],
            ),
        ],
    )
}

/// Clauses speak of role 0 alone, the axiom before 32 of role 1.
fn beside_inverse() -> Vec<Written> {
    of_deck(
        "0 0 0 2 2; 29 2; 32 0 2",
        &[
            (
                "29 broken beside 32, and clauses hold",
                "50 2; 52 1 1 1",
                &[1, 2, 1],
                &[0],
            ),
            (
                "29 broken, 32 held, and a clause broken",
                "50 2; 52 0 1 1; 52 1 1 1",
                &[1, 2, 1],
                &[1, 0, 1],
            ),
        ],
    )
}

/// 31, 33 and 34.
fn others() -> Vec<Written> {
    [
        of_deck(
            "0 0 0 2 2; 33 1 2",
            &[(
                "33 of an inverse code, by codes as written",
                "50 3; 52 0 0 2",
                &[1, 2, 2, 0],
                &[0],
            )],
        ),
        of_deck(
            "0 0 0 2 2; 34 0 3",
            &[(
                "34 with an inverse code, by the first",
                "50 3; 52 0 0 1; 52 1 1 0 2 1",
                &[1, 2, 1, 2],
                &[0],
            )],
        ),
        of_deck(
            "0 0 0 2 2; 31 1 2",
            &[(
                "31 with an inverse code, as the first has it",
                "50 3; 52 0 0 2; 52 1 2 0",
                &[1, 2, 2, 0],
                &[1, 0, 2, 0],
            )],
        ),
    ]
    .concat()
}

fn transitive() -> Vec<Written> {
    of_deck(
        "0 0 0 1 2; 28 1",
        &[(
            "28 of an inverse code",
            "50 3; 52 0 0 1 1 2",
            &[1, 2, 2, 1, 0],
            &[1, 0, 2, 1, 0],
        )],
    )
}
