//! The order of the refusals, and what each test looks at.

use super::{Written, lines};

/// Five variables in its one clause.
const WIDE: &str = "0 1 0 1 2; 3 0; 9 0 0; 9 0 1; 9 0 2; 9 0 3; 21 4 0";

pub fn all() -> Vec<Written> {
    let mut all = vec![
        Written::refused("13 before 14", &lines(WIDE), &lines("50 2; 51 0 2"), 13, 2),
        Written::refused("2 before 13", b"x", b"", 2, 1),
        Written::refused("3 before 13", b"", b"", 3, 1),
        Written::refused("10 before 13", &visits(), b"", 10, 66),
        Written::refused(
            "10 and a good state",
            &visits(),
            &lines("50 1; 53 0 0"),
            10,
            66,
        ),
    ];
    all.extend(wide());
    all.extend(tables());
    all.extend(sizes());
    all
}

/// 14 comes where any clause is wide, before the first is tested.
fn wide() -> Vec<Written> {
    let deck = lines("0 2 0 1 2; 3 0; 3 1; 9 0 0; 9 0 2; 9 0 3; 9 0 4; 21 0 1; 21 5 0");
    let four = lines("0 2 0 1 2; 3 0; 3 1; 9 0 0; 9 0 2; 9 0 3; 21 0 1; 21 4 1");
    vec![
        Written::new(
            "14 before a broken clause",
            &deck,
            &lines("50 2; 51 0 1"),
            &[1, 8, 1],
            &[2, 14, 0],
        ),
        Written::new(
            "four variables",
            &four,
            &lines("50 4; 51 0 3; 51 1 3; 52 0 0 1 0 2 1 1 1 2 2 3"),
            &[1, 8, 0],
            &[1, 1, 0, 1, 2, 3],
        ),
        Written::new(
            "four variables held",
            &four,
            &lines("50 4; 52 0 0 1"),
            &[0],
            &[0],
        ),
    ]
}

/// Visits that double with each level: two at each of a Some and an All of the level before.
fn visits() -> Vec<u8> {
    let levels = (0..21).map(|level| 3 * level);
    let levels = levels.map(|last| format!("9 0 {last}; 10 0 {last}; 7 {} {}", last + 1, last + 2));
    let deck = std::iter::once("0 1 1 1 2; 3 0".into()).chain(levels);
    let deck: Vec<String> = deck.chain(["36 63 0".into()]).collect();
    lines(&deck.join("; "))
}

/// 12 refuses both tests, whatever the state is.
fn tables() -> Vec<Written> {
    let deck = lines("0 2 0 0 2; 3 0; 3 1; 21 0 1");
    let mut bad = Written::refused("12 before 13", &deck, b"x", 12, 4);
    bad.rooms = [0, 2, 0];
    let mut good = Written::refused("12 and a good state", &deck, &lines("50 1"), 12, 4);
    good.rooms = [1, 1, 0];
    let mut full = Written::new(
        "full tables",
        &deck,
        &lines("50 1; 51 0 0"),
        &[1, 4, 0],
        &[1, 0, 0],
    );
    full.rooms = [1, 2, 0];
    vec![bad, good, full]
}

/// 1 comes before all others.
fn sizes() -> Vec<Written> {
    let mut short = Written::refused("1 before 2 and 13", b"x", b"x", 1, 0);
    short.store = lent::STORE - 1;
    let mut none = Written::refused("no store", &lines("0 0 0 0 2"), &lines("50 1"), 1, 0);
    none.store = 0;
    let mut odd = Written::new(
        "an odd store",
        &lines("0 0 0 0 2"),
        &lines("50 1"),
        &[0],
        &[0],
    );
    odd.store = lent::STORE + 3;
    vec![short, none, odd]
}
