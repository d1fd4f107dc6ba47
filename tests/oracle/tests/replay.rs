//! The data of the program `replay` is the original's, and has decks of every kind and every refusal.

use std::collections::HashSet;
use std::fs;
use std::path::Path;

use deck::generate::Shape;
use oracle::Answer;
use oracle::replay::{cases, files};

#[test]
fn the_data_is_the_originals() {
    let cases = cases();
    let folder = Path::new(env!("CARGO_MANIFEST_DIR")).join("../../crates/replay");
    let stored = ["stdin", "stdout"].map(|name| fs::read(folder.join(name)).unwrap());
    assert!(stored == files(&cases), "tests/replay/make writes it anew");
    let mut numbers = HashSet::new();
    let mut deferrals = HashSet::new();
    let mut decomposed = 0;
    for case in &cases {
        match &case.answer {
            Answer::Accepted(listing) => {
                deferrals.extend(listing.deferrals.iter().map(|deferral| deferral.1));
                decomposed += usize::from(listing.stats[6] > 0);
            }
            Answer::Refused(refusal) => drop(numbers.insert(refusal.number)),
            Answer::CannotHold => panic!("an answer is stored"),
        }
    }
    assert!(cases.len() >= 5_000 && decomposed >= 100);
    assert!((2..=12).all(|number| numbers.contains(&number)));
    assert!((1..=5).all(|kind| deferrals.contains(&kind)));
    let kinds: HashSet<&str> = cases.iter().map(|case| case.kind.as_str()).collect();
    for shape in Shape::ALL {
        assert!(kinds.contains(format!("{shape:?}").as_str()));
        assert!(kinds.contains(format!("{shape:?} damaged").as_str()));
    }
}
