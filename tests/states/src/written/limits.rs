//! At most one of those that are two things at once, with option 4 and without.

use super::{Written, of_deck};

/// A below at most 1 r (B and C), behind the header: one fresh class, 3. Clauses 0 and 1 put it below B and below C, and with
/// option 4 clause 3 puts B and C below it.
const LIMIT: &str = "3 0; 3 1; 3 2; 7 1 2; 12 1 0 3; 21 0 4";
/// Two of them at element 0, which is A.
const TWO: &str = "50 3; 51 0 0; 51 1 1 2; 51 2 0 1 2";

pub fn all() -> Vec<Written> {
    [without(), with()].concat()
}

fn without() -> Vec<Written> {
    let empty = format!("{TWO}; 52 0 0 1 0 2");
    of_deck(
        &format!("0 3 0 1 3; {LIMIT}"),
        &[(
            "without option 4 the clauses hold with an empty name",
            &empty,
            &[1, 7, 0],
            &[0],
        )],
    )
}

fn with() -> Vec<Written> {
    let empty = format!("{TWO}; 52 0 0 1 0 2");
    let named = format!("{TWO}; 51 3 1 2; 52 0 0 1 0 2");
    let one = format!("{TWO}; 51 3 1 2; 52 0 0 0 0 1");
    of_deck(
        &format!("0 3 0 1 7; {LIMIT}"),
        &[
            (
                "with option 4 an empty name breaks the other half",
                &empty,
                &[1, 7, 0],
                &[1, 3, 1],
            ),
            (
                "with option 4 the name as it should be breaks the limit",
                &named,
                &[1, 7, 0],
                &[1, 2, 0],
            ),
            ("with option 4 one of two related", &one, &[0], &[0]),
        ],
    )
}
