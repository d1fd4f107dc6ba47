//! Lists: of any length, dispute between later members, equal entries.

use super::{Written, of_deck};

pub fn all() -> Vec<Written> {
    [
        later(),
        later_roles(),
        union(),
        short(),
        equal(),
        equal_codes(),
    ]
    .concat()
}

/// The first member is no part of the dispute, or agrees with the second.
fn later() -> Vec<Written> {
    [
        of_deck(
            "0 3 0 0 2; 3 0; 3 1; 3 2; 22 0 1 2",
            &[(
                "22 and its third member",
                "50 2; 51 0 0; 51 1 0; 51 2 0 1",
                &[1, 5, 1],
                &[1, 4, 1],
            )],
        ),
        of_deck(
            "0 3 0 0 2; 3 0; 3 1; 3 2; 23 0 1 2",
            &[(
                "23 and its later members",
                "50 2; 51 0 0; 51 1 1; 51 2 1",
                &[1, 5, 1],
                &[1, 2, 1],
            )],
        ),
        of_deck(
            "0 4 0 0 2; 3 1; 3 2; 3 3; 24 0 0 1 2",
            &[(
                "24 and its later members",
                "50 2; 51 0 0 1; 51 1 0; 51 2 1; 51 3 1",
                &[1, 5, 1],
                &[1, 2, 1],
            )],
        ),
    ]
    .concat()
}

/// Likewise of roles.
fn later_roles() -> Vec<Written> {
    [
        of_deck(
            "0 0 0 3 2; 34 0 2 4",
            &[(
                "34 and its third member",
                "50 2; 52 0 0 1; 52 1 0 1; 52 2 0 1 1 1",
                &[1, 2, 1, 1],
                &[0],
            )],
        ),
        of_deck(
            "0 0 0 3 2; 31 0 2 4",
            &[(
                "31 and its later members",
                "50 2; 52 0 0 1; 52 1 1 0; 52 2 1 0",
                &[1, 2, 1, 0],
                &[1, 2, 1, 0],
            )],
        ),
    ]
    .concat()
}

/// Cover and overlap of a disjoint union are one condition: the least element counts, whichever it breaks.
fn union() -> Vec<Written> {
    of_deck(
        "0 3 0 0 2; 3 1; 3 2; 24 0 0 1",
        &[
            (
                "24, cover broken before overlap",
                "50 2; 51 0 0 1; 51 1 1; 51 2 1",
                &[1, 4, 0],
                &[1, 0, 1],
            ),
            (
                "24, overlap broken before cover",
                "50 2; 51 0 0 1; 51 1 0; 51 2 0",
                &[1, 4, 0],
                &[1, 0, 0],
            ),
        ],
    )
}

/// None, or one.
fn short() -> Vec<Written> {
    let class_lists = of_deck(
        "0 1 0 1 2; 3 0; 22; 22 0; 23; 23 0; 31; 31 0; 34; 34 0",
        &[(
            "lists of none and of one",
            "50 2; 51 0 1; 52 0 0 1",
            &[0],
            &[0],
        )],
    );
    let unions = of_deck(
        "0 1 0 0 2; 24 0",
        &[
            ("24 of no members held", "50 2", &[0], &[0]),
            (
                "24 of no members broken",
                "50 2; 51 0 1",
                &[1, 2, 1],
                &[1, 0, 1],
            ),
        ],
    );
    [class_lists, unions].concat()
}

/// 23 and 24 go by place.
fn equal() -> Vec<Written> {
    [
        of_deck(
            "0 1 0 0 2; 3 0; 23 0 0",
            &[
                ("23 with equal entries held", "50 2", &[0], &[0]),
                (
                    "23 with equal entries broken",
                    "50 2; 51 0 1",
                    &[1, 3, 1],
                    &[1, 0, 1],
                ),
            ],
        ),
        of_deck(
            "0 2 0 0 2; 3 1; 24 0 0 0",
            &[(
                "24 with equal entries broken",
                "50 2; 51 0 1; 51 1 1",
                &[1, 3, 1],
                &[1, 0, 1],
            )],
        ),
    ]
    .concat()
}

/// 31 goes by unequal codes.
fn equal_codes() -> Vec<Written> {
    [
        of_deck(
            "0 0 0 2 2; 31 0 0; 31 1 1 2",
            &[
                ("31 with equal codes held", "50 2; 52 0 0 1 1 1", &[0], &[0]),
                (
                    "31 with equal codes and another one",
                    "50 2; 52 0 0 1; 52 1 1 0",
                    &[1, 3, 1, 0],
                    &[1, 0, 1, 0],
                ),
            ],
        ),
        of_deck(
            "0 0 0 1 2; 31 0 1",
            &[(
                "31 with a role and its inverse",
                "50 3; 52 0 0 2 1 2 2 1",
                &[1, 2, 1, 2],
                &[1, 0, 1, 2],
            )],
        ),
        of_deck(
            "0 0 0 1 2; 34 0 0",
            &[("34 with equal codes held", "50 2; 52 0 0 1", &[0], &[0])],
        ),
    ]
    .concat()
}
