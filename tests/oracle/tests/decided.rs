//! The stored table of decided decks has the original's answers.

use std::fs;

#[test]
fn the_stored_table_is_the_originals() {
    let (folder, file) = oracle::decided::paths();
    let table = oracle::decided::table(&folder).expect("the decks are there");
    let stored = fs::read_to_string(file).expect("the table is there");
    let words = |text: &str| {
        text.split_whitespace()
            .map(str::to_owned)
            .collect::<Vec<_>>()
    };
    assert_eq!(words(&stored), words(&table));
}
