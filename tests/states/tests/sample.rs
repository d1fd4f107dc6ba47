//! The stored sample is the second evaluator's, and its replay sees each way to err, with a stand-in for the library.

use std::fs;
use std::path::Path;

use samples::sample::{Case, read};
use states::mock::{Fault, erring};
use states::sampled::named;
use states::written::short;
use states::{Rule, stored};

fn sample() -> Vec<Case> {
    let file = Path::new(env!("CARGO_MANIFEST_DIR")).join("sample");
    read(&fs::read_to_string(file).unwrap()).unwrap()
}

/// A name leads back to the pair, its tables and its answer.
#[test]
fn the_sample_has_the_second_evaluators_answers() {
    let cases = sample();
    for stored in &cases {
        assert!(
            Some(stored) == named(&stored.name).as_ref(),
            "{}",
            stored.name
        );
    }
    assert!(cases.len() > 300, "{}", cases.len());
    for written in short() {
        let name = format!("written {}", written.name);
        assert!(cases.iter().any(|case| case.name == name), "{name}");
    }
}

/// Whether the stand-in fails a case.
fn fails(fault: Fault, cases: &[Case]) -> bool {
    let library = erring(fault);
    (0..).zip(cases).any(|(place, case)| {
        let answer = stored::answer(&library, place, &case.deck);
        !answer.is_ok_and(|answer| case.answer.is_of(&answer))
    })
}

/// Those of no one table, text or rule.
const OTHERS: [Fault; 24] = [
    Fault::OtherNumber,
    Fault::OtherLine,
    Fault::OtherReply,
    Fault::ToldWhereHeld,
    Fault::EveryStateHolds,
    Fault::Refuses,
    Fault::Greatest,
    Fault::Last,
    Fault::AxiomNumber,
    Fault::ReadOnlySkipped,
    Fault::EqualEntriesPass,
    Fault::EqualCodesClash,
    Fault::InverseNotTurned,
    Fault::FreshEmpty,
    Fault::FiveVariablesPass,
    Fault::WideWhereReached,
    Fault::WideBeforeState,
    Fault::StateBeforeRun,
    Fault::SizesLast,
    Fault::ClausesSwapped,
    Fault::DeferralLost,
    Fault::DeferralTwice,
    Fault::TakesWrongSize(6),
    Fault::TakesWrongSize(7),
];

#[test]
fn the_replay_sees_each_fault() {
    let cases = sample();
    assert!(!fails(Fault::None, &cases));
    assert!(!fails(Fault::DeferralsTurned, &cases));
    let places = (0..5).flat_map(|place| {
        let beside = [-1, 0].map(|offset| Fault::Beside { place, offset });
        let left = [Fault::LeftOnRefusal(place), Fault::Behind(place)];
        beside.into_iter().chain(left)
    });
    let texts = (0..2).flat_map(|text| {
        let beside = [-1, 0].map(|offset| Fault::BesideText { text, offset });
        beside.into_iter().chain([Fault::TextChanged(text)])
    });
    let words = [(0, 3), (1, 6), (2, 2), (3, 13)];
    let words = words.map(|(place, count)| (0..count).map(move |back| Fault::Word { place, back }));
    let rules = Rule::ALL.map(Fault::Without);
    let less = (0..3).map(Fault::OneRecordLess);
    let faults = places.chain(texts).chain(words.into_iter().flatten());
    for fault in faults.chain(OTHERS).chain(rules).chain(less) {
        assert!(fails(fault, &cases), "{fault:?} is not seen");
    }
}

#[test]
fn another_form_is_refused() {
    let library = erring(Fault::None);
    let row = format!("{:>11}{:>11}{:>11}{:>11}{:>11}", 40, 1, 1, 1, 65_536);
    for input in [
        String::new(),
        format!("{row}\n"),
        format!("{row}{:>11}\n", 1),
    ] {
        assert!(stored::answer(&library, 0, input.as_bytes()).is_err());
    }
}
