//! Clauses before the later passes: the stored sample is the original's, and reaches refusals and deferrals.

use std::collections::HashSet;
use std::fs;
use std::path::Path;

use oracle::{Limits, clauses};
use samples::sample::read;

#[test]
fn the_sample_has_the_originals_answers() {
    let file = Path::new(env!("CARGO_MANIFEST_DIR")).join("../clauses/sample");
    let cases = read(&fs::read_to_string(file).unwrap()).unwrap();
    let mut numbers = HashSet::new();
    let mut kinds = HashSet::new();
    for case in &cases {
        let clauses = clauses(&case.deck, &Limits::LISTER);
        assert!(case.answer.is_of(&clauses.text), "{}", case.name);
        numbers.insert(clauses.refusal.map_or(0, |refusal| refusal.number));
        let deferrals = clauses.passed.map_or(Vec::new(), |passed| passed.deferrals);
        kinds.extend(deferrals.iter().map(|deferral| deferral.1));
    }
    assert!(cases.len() > 300 && numbers.len() == 12, "{numbers:?}");
    assert!((1..=5).all(|kind| kinds.contains(&kind)), "{kinds:?}");
}
