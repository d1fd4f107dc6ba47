//! States of many elements, lines or bytes, and fresh classes beyond the store's room.

use super::{Written, lines};

pub fn all() -> Vec<Written> {
    let mut all = vec![four_variables(), megabytes()];
    all.extend(beyond_the_room());
    all.extend(long_lines());
    all
}

/// 64 elements in a row, and a clause of four variables that only the last four break.
fn four_variables() -> Written {
    let deck = lines("0 2 0 1 2; 3 0; 3 1; 9 0 0; 9 0 2; 9 0 3; 21 4 1");
    let pairs: String = (0..63).map(|x| format!(" {x} {}", x + 1)).collect();
    let state = lines(&format!("50 64; 51 0 63; 52 0{pairs}"));
    Written::new(
        "64 elements and four variables",
        &deck,
        &state,
        &[1, 7, 60],
        &[1, 0, 60, 61, 62, 63],
    )
}

/// 60 roles with every pair, but for one pair of the last: some 5 MB.
fn megabytes() -> Written {
    let deck = lines("0 0 0 60 2; 33 0 116; 33 0 118; 31 117 3");
    let all: String = (0..64)
        .flat_map(|x| (0..64).map(move |y| format!(" {x} {y}")))
        .collect();
    let but_one = all.replace(" 62 63", "");
    let roles: String = (0..59).map(|role| format!("; 52 {role}{all}")).collect();
    let state = lines(&format!("50 64{roles}; 52 59{but_one}"));
    Written::new(
        "a state of megabytes",
        &deck,
        &state,
        &[1, 3, 62, 63],
        &[1, 0, 0, 0],
    )
}

/// Lines of more numbers than any good one has, or than scratch has words.
fn long_lines() -> Vec<Written> {
    let deck = lines("0 1 1 1 2; 3 0");
    let mut all = Vec::new();
    for count in [8_193, 40_957, 40_958, 40_959, 400_000] {
        let zeros = " 0".repeat(count);
        for (kind, line) in [(50, 1), (51, 2), (52, 2), (53, 2)] {
            let first = if kind == 50 { "" } else { "50 1; " };
            let state = lines(&format!("{first}{kind} 0{zeros}; 53 0 0"));
            let name = format!("a line {kind} of {count} zeros behind its id");
            all.push(Written::refused(&name, &deck, &state, 13, line));
        }
        let state = lines(&format!("50 1; 51 0{zeros}"));
        let name = format!("one of {count} zeros without its line feed");
        let cut = &state[..state.len() - 1];
        all.push(Written::refused(&name, &deck, cut, 13, 2));
    }
    let spaces = vec![b' '; 1 << 20];
    let state = [&lines("50 1")[..], &spaces].concat();
    all.push(Written::refused(
        "a megabyte of spaces",
        &deck,
        &state,
        13,
        2,
    ));
    all
}

/// 4,096 classes and as many individuals: the first fresh id is 8,192, the first beyond the least store.
fn beyond_the_room() -> Vec<Written> {
    let deck = lines("0 4096 4096 1 2; 3 0; 3 4095; 7 0 1; 9 0 2; 21 0 3");
    let individuals: String = (0..4096)
        .map(|individual| format!("; 53 {individual} {}", individual % 2))
        .collect();
    let state = |fresh: &str| {
        lines(&format!(
            "50 2; 51 0 0; 51 4095 0 1{fresh}; 52 0 0 0{individuals}"
        ))
    };
    let told = |&(name, fresh, clauses, room): &(&str, &str, &[u32], usize)| {
        let mut written = Written::new(name, &deck, &state(fresh), &[0], clauses);
        written.store += room;
        written
    };
    BEYOND.iter().map(told).collect()
}

/// Name, line of the fresh class, what its clauses say, and the bytes of the store beyond the least.
const BEYOND: [(&str, &str, &[u32], usize); 7] = [
    ("a fresh class beyond the room", "; 51 8192 0", &[0], 0),
    ("one without its line", "", &[1, 2, 0], 0),
    ("one with an empty line", "; 51 8192", &[1, 2, 0], 0),
    ("one with too many elements", "; 51 8192 0 1", &[1, 0, 1], 0),
    ("a fresh class with half its room", "; 51 8192 0", &[0], 7),
    ("a fresh class with its room", "; 51 8192 0", &[0], 8),
    ("one with its room, without its line", "", &[1, 2, 0], 8),
];
