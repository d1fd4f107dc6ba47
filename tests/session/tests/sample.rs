//! The stored sample is the second reading's, and its replay sees each way to err, with a stand-in for the library.

use std::fs;
use std::path::Path;

use samples::sample::{Case, read};
use session::mock::{Fault, erring};
use session::sampled::named;
use session::stored;
use session::written::all;

fn sample() -> Vec<Case> {
    let file = Path::new(env!("CARGO_MANIFEST_DIR")).join("sample");
    read(&fs::read_to_string(file).unwrap()).unwrap()
}

/// A name leads back to the run and its answer.
#[test]
fn the_sample_has_the_second_readings_answers() {
    let cases = sample();
    for stored in &cases {
        let is_same = Some(stored) == named(&stored.name).as_ref();
        assert!(is_same, "{}", stored.name);
    }
    assert!(cases.len() > 80, "{}", cases.len());
    for written in all() {
        let name = format!("written {}", written.name);
        assert!(cases.iter().any(|case| case.name == name), "{name}");
    }
}

/// Whether the stand-in fails a case.
fn fails(fault: Fault, cases: &[Case]) -> bool {
    let library = erring(fault);
    (0..).zip(cases).any(|(place, case)| {
        let answer = stored::answer(&library, place, &case.deck);
        !answer.is_ok_and(|answer| case.answer.is_of(&answer))
    })
}

/// Those of no one table or word.
const FAULTS: [Fault; 56] = [
    Fault::OtherNumber,
    Fault::OtherLine,
    Fault::Accepts,
    Fault::StartLeaves,
    Fault::StartLeavesAtSizes,
    Fault::StartOnce,
    Fault::StartNotCleared,
    Fault::LengthOneLess,
    Fault::ZerosAreThree,
    Fault::TailNotLookedAt,
    Fault::LastByteNotLookedAt,
    Fault::TextNotLookedAt,
    Fault::HeaderLookedAt,
    Fault::AddBehindFirst,
    Fault::AddBeforeLast,
    Fault::TwoAndThreeTurned,
    Fault::ConceptTaken,
    Fault::TwoLinesTaken,
    Fault::RefusedTextLeft,
    Fault::RefusedCleared,
    Fault::TooLongAtLine,
    Fault::TooLongLast,
    Fault::LengthOneLimitLess,
    Fault::LastAxiomLimitLess,
    Fault::MoreAxiomsTaken,
    Fault::LongListsTaken,
    Fault::NamesNotAsked,
    Fault::EmptyIsTwo,
    Fault::AddedLineLess,
    Fault::StrikeFromAxioms,
    Fault::NextStruck,
    Fault::LastNotLive,
    Fault::FirstNotLive,
    Fault::AnyLineStruck,
    Fault::NotLiveAtLine,
    Fault::NotLiveFirst,
    Fault::StruckNotCleared,
    Fault::OptionsLimitOneMore,
    Fault::OptionsLimitOneLess,
    Fault::OptionsInRoles,
    Fault::OptionsLeft,
    Fault::OptionsNotWritten,
    Fault::OptionsAtNoLine,
    Fault::OptionsFirst,
    Fault::TakeOfStart,
    Fault::TakeOptionsOfStart,
    Fault::TakeWithoutLast,
    Fault::TakeChanges,
    Fault::TakeClears,
    Fault::SizesLast,
    Fault::LongerSessionTaken,
    Fault::ShortScratchTaken,
    Fault::AnyNumbersTaken,
    Fault::ScratchLeft,
    Fault::ScratchLeftOnRefusal,
    Fault::TextChanged,
];

#[test]
fn the_replay_sees_each_fault() {
    let cases = sample();
    assert!(!fails(Fault::None, &cases));
    let beside = [-1, 0].into_iter().flat_map(|offset| {
        let of_calls = (0..3).map(move |place| Fault::Beside { place, offset });
        let of_takings = (0..5).map(move |place| Fault::BesideTaken { place, offset });
        of_calls.chain(of_takings)
    });
    let left = (0..5).map(Fault::LeftOnRefusal);
    let words = [(0, 3), (1, 6), (2, 2), (3, 10)];
    let words = words.map(|(place, count)| (0..count).map(move |back| Fault::Word { place, back }));
    let words = words.into_iter().flatten();
    for fault in FAULTS.into_iter().chain(beside).chain(left).chain(words) {
        assert!(fails(fault, &cases), "{fault:?} is not seen");
    }
}

/// The replay holds the host's diagnosis against each reply.
#[test]
fn the_replay_asks_the_diagnosis() {
    let cases = sample();
    let told = |fault: Fault| {
        let library = erring(fault);
        let mut answers = (0..)
            .zip(&cases)
            .map(|(place, case)| stored::answer(&library, place, &case.deck));
        answers.find_map(Result::err).map(|told| told.to_string())
    };
    assert_eq!(told(Fault::None), None);
    for fault in [Fault::OtherLine, Fault::Accepts, Fault::OptionsAtNoLine] {
        let told = told(fault).unwrap();
        assert!(told.contains(": the diagnosis is Some("), "{told}");
    }
}

/// A run is read as it was written.
#[test]
fn steps_are_read_back() {
    for seed in 1..60 {
        let case = session::case(seed);
        let steps = case.steps.iter().map(|planned| &planned.step);
        let read = stored::steps(&stored::input(steps.clone())).unwrap();
        assert!(read.iter().eq(steps), "seed {seed}");
    }
}

#[test]
fn another_form_is_refused() {
    let library = erring(Fault::None);
    let row = format!("{:>11}{:>11}{:>11}", 70, 65_540, 1_572_864);
    for input in [
        "x".to_owned(),
        format!("{row}\n"),
        format!("{row}{:>11}\n", 1),
        format!("{:>11}\n", 60),
    ] {
        assert!(stored::answer(&library, 0, input.as_bytes()).is_err());
    }
}
