//! Normal forms: the stored sample is the original's, and generated decks reach the limits from both sides.

use std::collections::HashSet;
use std::fs;
use std::path::Path;

use deck::generate::forms_at_limits;
use deck::random::Random;
use oracle::{Limits, forms};
use samples::sample::read;

#[test]
fn the_sample_has_the_originals_answers() {
    let file = Path::new(env!("CARGO_MANIFEST_DIR")).join("../normalforms/sample");
    let cases = read(&fs::read_to_string(file).unwrap()).unwrap();
    let mut numbers = HashSet::new();
    for case in &cases {
        let forms = forms(&case.deck, &Limits::LISTER);
        assert!(case.answer.is_of(&forms.text), "{}", case.name);
        numbers.insert(forms.refusal.map_or(0, |refusal| refusal.number));
    }
    assert!(cases.len() > 300 && numbers.len() == 11);
}

#[test]
fn normal_forms_reach_their_limits() {
    let limits = Limits::LISTER;
    let mut seen = [0; 4];
    for seed in 0..60 {
        let deck = deck::write(&forms_at_limits(&mut Random::new(seed)));
        let forms = forms(&deck, &limits);
        match forms.refusal.map(|refusal| refusal.number) {
            None => {
                seen[0] += usize::from(forms.most.visits == limits.visits);
                seen[1] += usize::from(forms.most.pool == limits.pool);
            }
            Some(10) => seen[2] += 1,
            Some(11) => seen[3] += 1,
            other => panic!("{other:?}"),
        }
    }
    assert!(seen.iter().all(|&count| count > 1), "{seen:?}");
}
