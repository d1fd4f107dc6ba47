//! The stored sample is the original's, and its replay sees each way to err, with a stand-in for the library.

use std::collections::HashSet;
use std::fs;
use std::path::Path;

use entry::mock::{Fault, erring};
use entry::{
    Decks, OTHER, must_dwelling, must_following, must_limits, sampled, stored, stored_case,
};
use oracle::met::ENDS;
use samples::sample::{Case, Stored, read};

fn sample(name: &str) -> Vec<Case> {
    let file = Path::new(env!("CARGO_MANIFEST_DIR")).join(name);
    read(&fs::read_to_string(file).unwrap()).unwrap()
}

/// Seed and kind lead back to the deck, its tables and its answer.
#[test]
fn the_sample_has_the_originals_answers() {
    let cases = sample("sample");
    let [mut dwelling, mut limits] = [HashSet::new(), HashSet::new()];
    for stored in &cases {
        let case = stored_case(&stored.name).unwrap();
        assert!(*stored == sampled(&case), "{}", stored.name);
        match case.part {
            Decks::Limits => limits.extend(case.met),
            _ => dwelling.extend(case.met),
        }
    }
    let ends = ENDS.map(str::to_owned);
    let must = must_dwelling().into_iter().chain(ends);
    let missing = must.filter(|what| !dwelling.contains(what));
    let of_limits = must_limits().into_iter();
    let missing: Vec<String> = missing
        .chain(of_limits.filter(|what| !limits.contains(what)))
        .collect();
    assert!(cases.len() > 600 && missing.is_empty(), "{missing:?}");
}

/// So with the decks of option 8.
#[test]
fn the_followed_sample_has_the_copys_answers() {
    let cases = sample("followed");
    let mut met = HashSet::new();
    let (mut others, mut accepted) = (0, 0);
    for stored in &cases {
        let case = stored_case(&stored.name).unwrap();
        assert!(*stored == sampled(&case), "{}", stored.name);
        assert_eq!(case.part, Decks::Following);
        others += usize::from(case.met.iter().any(|what| what == OTHER));
        accepted += usize::from(case.expected.reply == 0);
        met.extend(case.met);
    }
    let must = must_following().into_iter();
    let missing: Vec<String> = must.filter(|what| !met.contains(what)).collect();
    assert!(missing.is_empty(), "{missing:?}");
    assert!(cases.len() >= 150 && 2 * accepted > cases.len());
    assert!(4 * others > 3 * accepted, "{others} of {accepted}");
}

/// Whether the stand-in fails a case.
fn fails(fault: Fault, cases: &[Case]) -> bool {
    let library = erring(fault);
    (0..).zip(cases).any(|(place, case)| {
        let answer = stored::answer(library, place, &case.deck);
        !answer.is_ok_and(|answer| case.answer.is_of(&answer))
    })
}

#[test]
fn the_replay_sees_each_fault() {
    let mut cases = sample("sample");
    let followed = sample("followed");
    assert!(!fails(Fault::None, &followed));
    let ignored = [1, 2, 4, 8].map(Fault::OptionIgnored).into_iter();
    for fault in ignored.chain([Fault::TwoSteps, Fault::NotTurned]) {
        assert!(fails(fault, &followed), "{fault:?} is not seen");
    }
    assert!(!fails(Fault::None, &cases));
    // The others take long.
    cases.retain(|case| matches!(case.answer, Stored::Text(_)));
    assert!(!fails(Fault::DeferralsTurned, &cases));
    let places = (0..5).flat_map(|place| {
        let beside = [-1, 0].map(|offset| Fault::Beside { place, offset });
        beside.into_iter().chain([Fault::LeftOnRefusal(place)])
    });
    let words = [(0, 3), (1, 6), (2, 2), (3, 10)];
    let words = words.map(|(place, count)| (0..count).map(move |back| Fault::Word { place, back }));
    let behind = [0, 1, 2, 4].map(Fault::Behind);
    let others = [
        Fault::OtherNumber,
        Fault::OtherLine,
        Fault::Accepts,
        Fault::Refuses,
        Fault::ClausesSwapped,
        Fault::DeferralLost,
        Fault::DeferralTwice,
        Fault::BesideDeck(-1),
        Fault::BesideDeck(0),
        Fault::DeckChanged,
        Fault::OptionIgnored(1),
        Fault::OptionIgnored(4),
    ];
    let faults = places.chain(words.into_iter().flatten()).chain(behind);
    let less = (0..3).map(Fault::OneRecordLess);
    for fault in faults.chain(others).chain(less) {
        assert!(fails(fault, &cases), "{fault:?} is not seen");
    }
}

#[test]
fn another_form_is_refused() {
    let library = erring(Fault::None);
    let row = format!("{:>11}{:>11}{:>11}", 40, 1, 1);
    for input in [String::new(), format!("{row}\n"), format!("{row}{:>11}", 1)] {
        assert!(stored::answer(library, 0, input.as_bytes()).is_err());
    }
}
