//! Those that crates/states/specs/Examples.antt computes.

use super::{Written, of_deck};

/// A below some r (B and C): one fresh class, 3.
const NAMED: &str = "0 3 0 1 3; 3 0; 3 1; 3 2; 7 1 2; 9 0 3; 21 0 4";
const ASSERTED: &str = "0 1 2 0 3; 3 0; 36 0 1";

pub fn all() -> Vec<Written> {
    [named(), along_roles(), asserted(), others()].concat()
}

fn named() -> Vec<Written> {
    of_deck(
        NAMED,
        &[
            (
                "the fresh class as it should be",
                "50 2; 51 0 0; 51 1 1; 51 2 0 1; 51 3 1; 52 0 0 1",
                &[0],
                &[0],
            ),
            (
                "the fresh class without a line",
                "50 2; 51 0 0; 51 1 1; 51 2 0 1; 52 0 0 1",
                &[0],
                &[1, 2, 0],
            ),
            (
                "a class beyond the fresh one",
                "50 2; 51 4 1",
                &[2, 13, 2],
                &[2, 13, 2],
            ),
        ],
    )
}

fn along_roles() -> Vec<Written> {
    let inverse = of_deck(
        "0 0 0 2 3; 32 0 2",
        &[(
            "32 with the second role's pair alone",
            "50 3; 52 1 2 1",
            &[1, 2, 1, 2],
            &[0],
        )],
    );
    let chain = of_deck(
        "0 0 0 2 3; 27 2 0 0 0",
        &[(
            "a chain of three and its least path",
            "50 4; 52 0 0 1 1 2 1 3 2 0 3 3; 52 1 0 0",
            &[1, 2, 0, 1, 3, 3],
            &[0],
        )],
    );
    [inverse, chain].concat()
}

fn asserted() -> Vec<Written> {
    of_deck(
        ASSERTED,
        &[
            (
                "36 broken shows nothing",
                "50 1; 53 0 0; 53 1 0",
                &[1, 3],
                &[0],
            ),
            (
                "an individual without its line",
                "50 1; 53 0 0",
                &[2, 13, 0],
                &[2, 13, 0],
            ),
        ],
    )
}

fn others() -> Vec<Written> {
    let wide = of_deck(
        "0 1 0 1 2; 3 0; 9 0 0; 9 0 1; 9 0 2; 9 0 3; 21 4 0",
        &[("five variables", "50 1", &[0], &[2, 14, 0])],
    );
    let empty = Written::refused("an empty state", &super::lines("0 0 0 0 3"), b"", 13, 1);
    [wide, vec![empty]].concat()
}
