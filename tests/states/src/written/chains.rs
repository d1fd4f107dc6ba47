//! Chains of any length: all their elements are shown.

use super::{Written, lines, of_deck};

pub fn all() -> Vec<Written> {
    let long = [100, 128].into_iter().flat_map(of_parts);
    [none_or_one(), three()]
        .concat()
        .into_iter()
        .chain(long)
        .collect()
}

fn none_or_one() -> Vec<Written> {
    [
        of_deck(
            "0 0 0 1 2; 27 0",
            &[
                ("27 of no parts held", "50 2; 52 0 0 0 1 1", &[0], &[0]),
                (
                    "27 of no parts broken",
                    "50 2; 52 0 0 0 0 1",
                    &[1, 2, 1],
                    &[0],
                ),
            ],
        ),
        of_deck(
            "0 0 0 2 2; 27 0 2",
            &[
                (
                    "27 of one part held",
                    "50 2; 52 0 0 1; 52 1 0 1",
                    &[0],
                    &[0],
                ),
                (
                    "27 of one part broken",
                    "50 2; 52 1 1 0",
                    &[1, 2, 1, 0],
                    &[0],
                ),
            ],
        ),
    ]
    .concat()
}

fn three() -> Vec<Written> {
    of_deck(
        "0 0 0 2 2; 27 0 2 3 2",
        &[
            (
                "27 of three parts held",
                "50 2; 52 0 0 1; 52 1 0 1",
                &[0],
                &[0],
            ),
            (
                "27 of three parts broken",
                "50 3; 52 0 0 1; 52 1 0 1 2 1",
                &[1, 2, 2, 1, 0, 1],
                &[0],
            ),
        ],
    )
}

/// Around a ring of three, or from end to end of a role with every pair.
fn of_parts(parts: usize) -> Vec<Written> {
    let deck = lines(&format!("0 0 0 2 2; 27 0{}", " 2".repeat(parts)));
    let around: Vec<u32> = (0..3).cycle().take(parts + 1).collect();
    let end = around[parts];
    let ring = "52 1 0 1 1 2 2 0";
    let held = match end {
        1 => "52 0 0 1 1 2 2 0",
        _ => "52 0 0 2 1 0 2 1",
    };
    let broken = match end {
        1 => "52 0 0 1 1 2",
        _ => "52 0 0 2 1 0",
    };
    let from_last: Vec<u32> = [2, 0, 1].into_iter().cycle().take(parts + 1).collect();
    let state = |sup: &str| lines(&format!("50 3; {sup}; {ring}"));
    let all_but_one = lines("50 2; 52 0 0 0 0 1 1 0; 52 1 0 0 0 1 1 0 1 1");
    let mut crossing = vec![0; parts + 1];
    crossing[0] = 1;
    crossing[parts] = 1;
    let named = |what: &str| format!("27 of {parts} parts {what}");
    vec![
        Written::new(&named("held"), &deck, &state(held), &[0], &[0]),
        Written::new(
            &named("broken"),
            &deck,
            &state(broken),
            &[&[1, 2], &from_last[..]].concat(),
            &[0],
        ),
        Written::new(
            &named("broken with every step"),
            &deck,
            &all_but_one,
            &[&[1, 2], &crossing[..]].concat(),
            &[0],
        ),
    ]
}
