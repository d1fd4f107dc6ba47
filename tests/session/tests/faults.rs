//! The comparison with a stand-in for the library: no difference where it answers as the second reading does, and a difference for
//! each way to err.

use std::collections::HashSet;

use session::mock::{Fault, erring};
use session::{Caller, Until, case, compare, must, play};

/// The first seed with a difference, and the difference.
fn first_difference(fault: Fault, seeds: impl IntoIterator<Item = u64>) -> Option<(u64, String)> {
    let library = erring(fault);
    let mut caller = Caller::default();
    seeds.into_iter().find_map(|seed| {
        let played = play(&mut caller, &library, &case(seed), u64::MAX);
        let difference = played.err()?;
        Some((seed, difference.told))
    })
}

/// Seeds of runs that are drawn by chance.
const SEEDS: std::ops::Range<u64> = 1..400;

/// The fault is seen, and as what it is.
fn assert_seen(fault: Fault, expected: &str) {
    let Some((seed, difference)) = first_difference(fault, SEEDS) else {
        panic!("{fault:?} is not seen");
    };
    assert!(
        difference.contains(expected),
        "{fault:?} at seed {seed}: {difference}"
    );
}

const SESSION: &str = "of the session";

#[test]
fn the_stand_in_has_no_difference() {
    assert_eq!(first_difference(Fault::None, 1..60), None);
}

#[test]
fn replies() {
    assert_seen(Fault::OtherNumber, "the reply is");
    assert_seen(Fault::OtherLine, "the reply is");
    assert_seen(Fault::Accepts, "the reply is done, ");
}

#[test]
fn starts() {
    assert_seen(Fault::StartLeaves, SESSION);
    assert_seen(Fault::StartLeavesAtSizes, SESSION);
    assert_seen(Fault::StartOnce, "the reply is (1, 0), not");
    assert_seen(Fault::StartNotCleared, SESSION);
    assert_seen(Fault::LengthOneLess, "byte 0 of the session");
}

#[test]
fn what_is_held() {
    assert_seen(Fault::ZerosAreThree, "the reply is (3, 1), not (1, 0)");
    for fault in [
        Fault::TailNotLookedAt,
        Fault::LastByteNotLookedAt,
        Fault::TextNotLookedAt,
        Fault::HeaderLookedAt,
    ] {
        assert_seen(fault, ", not (1, 0)");
    }
}

#[test]
fn additions() {
    for fault in [
        Fault::AddBehindFirst,
        Fault::AddBeforeLast,
        Fault::RefusedTextLeft,
        Fault::RefusedCleared,
    ] {
        assert_seen(fault, SESSION);
    }
    assert_seen(Fault::TwoAndThreeTurned, "the reply is (");
    assert_seen(Fault::ConceptTaken, "the reply is done, not (3, ");
    assert_seen(Fault::TwoLinesTaken, "the reply is done, not (3, ");
    assert_seen(Fault::TooLongAtLine, "not (2, 0)");
    assert_seen(Fault::TooLongLast, "not (2, 0)");
    assert_seen(Fault::LengthOneLimitLess, "the reply is (2, 0), not done");
    assert_seen(Fault::LastAxiomLimitLess, "not done");
    assert_seen(Fault::MoreAxiomsTaken, "the reply is done, not (4, ");
    assert_seen(Fault::LongListsTaken, "the reply is done, not (4, ");
    assert_seen(Fault::NamesNotAsked, "the reply is done, not (5, ");
    assert_seen(Fault::EmptyIsTwo, "not (3, ");
    assert_seen(Fault::AddedLineLess, "the reply is (");
}

#[test]
fn strikes() {
    assert_seen(Fault::StrikeFromAxioms, "");
    assert_seen(Fault::NextStruck, SESSION);
    assert_seen(Fault::LastNotLive, "the reply is (15, 0), not done");
    assert_seen(Fault::FirstNotLive, "the reply is (15, 0), not done");
    assert_seen(Fault::AnyLineStruck, "the reply is done, not (15, 0)");
    assert_seen(Fault::NotLiveAtLine, "not (15, 0)");
    assert_seen(Fault::NotLiveFirst, "the reply is (15, 0), not (1, 0)");
    assert_seen(Fault::StruckNotCleared, SESSION);
}

#[test]
fn options() {
    assert_seen(Fault::OptionsLimitOneMore, "the reply is done, not (4, 1)");
    assert_seen(Fault::OptionsLimitOneLess, "the reply is (4, 1), not done");
    assert_seen(Fault::OptionsInRoles, SESSION);
    assert_seen(Fault::OptionsLeft, SESSION);
    assert_seen(Fault::OptionsNotWritten, SESSION);
    assert_seen(Fault::OptionsAtNoLine, "the reply is (4, 0), not (4, 1)");
    assert_seen(Fault::OptionsFirst, "the reply is (4, 1), not (1, 0)");
}

#[test]
fn takings() {
    assert_seen(Fault::TakeOfStart, "");
    assert_seen(Fault::TakeOptionsOfStart, "");
    assert_seen(Fault::TakeWithoutLast, "");
    assert_seen(Fault::TakeChanges, SESSION);
    assert_seen(Fault::TakeClears, SESSION);
    let words = [
        (0, 3, "the clause table"),
        (1, 6, "the atom table"),
        (2, 2, "the deferral table"),
        (3, 10, "the table of numbers"),
    ];
    for (place, count, name) in words {
        for back in 0..count {
            assert_seen(Fault::Word { place, back }, name);
        }
    }
}

#[test]
fn sizes() {
    assert_seen(Fault::SizesLast, "not (1, 0)");
    for fault in [
        Fault::LongerSessionTaken,
        Fault::ShortScratchTaken,
        Fault::AnyNumbersTaken,
    ] {
        assert_seen(fault, ", not (1, 0)");
    }
}

const TAKEN: [&str; 5] = [
    "the clause table",
    "the atom table",
    "the deferral table",
    "the table of numbers",
    "scratch",
];

#[test]
fn zeros() {
    assert_seen(Fault::ScratchLeft, "byte 0 of scratch is");
    assert_seen(Fault::ScratchLeftOnRefusal, "byte 0 of scratch is");
    for (place, name) in TAKEN.into_iter().enumerate() {
        let left = Fault::LeftOnRefusal(place);
        assert_seen(left, &format!("byte 0 of {name} is"));
    }
}

#[test]
fn bytes_beside() {
    for offset in [-64, -1, 0, 63] {
        let side = if offset < 0 { "before" } else { "after" };
        let told = |name: &str| format!("a byte {side} {name} was written");
        for (place, name) in ["the text", "the session", "scratch"]
            .into_iter()
            .enumerate()
        {
            assert_seen(Fault::Beside { place, offset }, &told(name));
        }
        for (place, name) in TAKEN.into_iter().enumerate() {
            assert_seen(Fault::BesideTaken { place, offset }, &told(name));
        }
    }
    assert_seen(Fault::TextChanged, "the text was changed");
}

#[test]
fn a_short_comparison_misses_something() {
    assert!(compare(&erring(Fault::None), 20, &Until::Count(100)));
    assert!(!compare(&erring(Fault::None), 20, &Until::Seconds(1)));
    assert!(!compare(
        &erring(Fault::OtherNumber),
        20,
        &Until::Count(1_000)
    ));
}

/// What a seed gives depends on nothing else.
#[test]
fn same_seed_same_case() {
    for seed in [5, 401, 402, u64::MAX] {
        let (first, second) = (case(seed), case(seed));
        assert_eq!((first.kind, first.steps), (second.kind, second.steps));
    }
}

#[test]
fn no_name_stands_for_two_things() {
    let must = must();
    let names: HashSet<&String> = must.iter().collect();
    assert_eq!(names.len(), must.len());
}

/// A round of seeds meets all that must be met. It takes a minute: `cargo test --release -- --ignored`.
#[test]
#[ignore = "takes long"]
fn a_round_meets_everything() {
    assert!(compare(&erring(Fault::None), 1, &Until::Seconds(60)));
}
