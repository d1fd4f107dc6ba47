//! The comparison with a stand-in for the library: no difference where it answers as the second evaluator does, and a difference
//! for each way to err.

use std::collections::HashSet;

use states::mock::{Fault, erring};
use states::{Call, Rule, Until, WRONG, case, compare, compare_written, difference, must};

/// The first seed with a difference, and the difference.
fn first_difference(fault: Fault, seeds: impl IntoIterator<Item = u64>) -> Option<(u64, String)> {
    let library = erring(fault);
    let mut call = Call::default();
    seeds.into_iter().find_map(|seed| {
        let mut case = case(seed);
        let difference = difference(&mut call, &library, &mut case)?;
        Some((seed, difference))
    })
}

/// Seeds of pairs that are drawn by chance.
const SEEDS: std::ops::Range<u64> = 100..2_000;

/// The fault is seen, and as what it is.
fn assert_seen(fault: Fault, expected: &str) {
    let Some((seed, difference)) = first_difference(fault, SEEDS) else {
        panic!("{fault:?} is not seen");
    };
    assert!(
        difference.contains(expected),
        "{fault:?} at seed {seed}: {difference}"
    );
}

#[test]
fn the_stand_in_has_no_difference() {
    assert_eq!(first_difference(Fault::None, 0..600), None);
}

#[test]
fn the_order_of_deferrals_is_free() {
    assert_eq!(first_difference(Fault::DeferralsTurned, 100..600), None);
}

#[test]
fn replies() {
    assert_seen(Fault::OtherNumber, "the reply is");
    assert_seen(Fault::OtherLine, "the reply is");
    assert_seen(Fault::OtherReply, "the reply is 2, not holds");
    assert_seen(Fault::ToldWhereHeld, "word 10 of the store is 2, not 0");
    assert_seen(Fault::EveryStateHolds, "the reply is holds, not broken");
    assert_seen(Fault::Refuses, "the reply is (14, 0), not");
}

#[test]
fn verdicts() {
    assert_seen(Fault::Greatest, "of the store");
    assert_seen(Fault::Last, "of the store");
    assert_seen(Fault::AxiomNumber, "word 10 of the store");
    assert_seen(Fault::ReadOnlySkipped, "axioms");
    assert_seen(Fault::EqualEntriesPass, "axioms");
    assert_seen(Fault::EqualCodesClash, "axioms");
    assert_seen(Fault::InverseNotTurned, "");
    assert_seen(Fault::EmptyBeyondTheRoom, "clauses");
    assert_seen(Fault::FreshEmpty, "clauses");
}

#[test]
fn order_of_refusals() {
    assert_seen(Fault::FiveVariablesPass, "not (14, 0)");
    assert_seen(Fault::WideWhereReached, "not (14, 0)");
    assert_seen(Fault::WideBeforeState, "the reply is (14, 0), not (13, ");
    assert_seen(Fault::StateBeforeRun, "the reply is (13, ");
    assert_seen(Fault::SizesLast, "not (1, 0)");
}

#[test]
fn rules_of_a_state() {
    for rule in Rule::ALL {
        assert_seen(Fault::Without(rule), "not (13, ");
    }
}

#[test]
fn records() {
    assert_seen(Fault::ClausesSwapped, "of the clause table");
    for (place, name, count) in [
        (0, "the clause table", 3),
        (1, "the atom table", 6),
        (3, "the store", 13),
    ] {
        for back in 0..count {
            let word = Fault::Word { place, back };
            assert_seen(word, &format!("of {name}"));
        }
    }
}

#[test]
fn deferrals() {
    let faults = [
        Fault::DeferralLost,
        Fault::DeferralTwice,
        Fault::Word { place: 2, back: 0 },
        Fault::Word { place: 2, back: 1 },
    ];
    for fault in faults {
        assert_seen(fault, "the deferral table has other records");
    }
}

const TABLES: [&str; 5] = [
    "the clause table",
    "the atom table",
    "the deferral table",
    "the store",
    "scratch",
];

#[test]
fn zeros() {
    for (place, name) in TABLES.into_iter().enumerate() {
        assert_seen(Fault::Behind(place), "not 0");
        let left = Fault::LeftOnRefusal(place);
        assert_seen(left, &format!("byte 0 of {name} is"));
    }
}

#[test]
fn bytes_beside() {
    for offset in [-64, -1, 0, 63] {
        let side = if offset < 0 { "before" } else { "after" };
        for (place, name) in TABLES.into_iter().enumerate() {
            let beside = Fault::Beside { place, offset };
            assert_seen(beside, &format!("a byte {side} {name} was written"));
        }
        for (text, name) in ["deck", "state"].into_iter().enumerate() {
            let told = format!("a byte {side} the {name} was written");
            assert_seen(Fault::BesideText { text, offset }, &told);
        }
    }
    assert_seen(Fault::TextChanged(0), "the deck was changed");
    assert_seen(Fault::TextChanged(1), "the state was changed");
}

#[test]
fn sizes() {
    for wrong in 0..WRONG.len() {
        assert_seen(Fault::TakesWrongSize(wrong), "not (1, 0)");
    }
    for place in 0..3 {
        assert_seen(Fault::OneRecordLess(place), "the reply is (12, ");
    }
}

#[test]
fn pairs_written_by_hand() {
    assert!(compare_written(&erring(Fault::None)));
    for fault in [Fault::Greatest, Fault::EmptyBeyondTheRoom] {
        assert!(!compare_written(&erring(fault)));
    }
}

#[test]
fn a_short_comparison_misses_something() {
    let missed = compare(&erring(Fault::None), 20, &Until::Count(3));
    let differs = compare(&erring(Fault::OtherNumber), 20, &Until::Count(100));
    assert!(!missed && !differs);
}

/// What a seed gives depends on nothing else.
#[test]
fn same_seed_same_case() {
    for seed in [0, 5, 700, 701, u64::MAX] {
        let (first, second) = (case(seed), case(seed));
        assert_eq!(
            (
                first.deck,
                first.state,
                first.sizes,
                first.expected,
                first.met
            ),
            (
                second.deck,
                second.state,
                second.sizes,
                second.expected,
                second.met
            )
        );
    }
}

#[test]
fn no_name_stands_for_two_things() {
    let must = must();
    let names: HashSet<&String> = must.iter().collect();
    assert_eq!(names.len(), must.len());
}

/// A round of seeds meets all that must be met. It takes long: `cargo test --release -- --ignored`.
#[test]
#[ignore = "takes long"]
fn a_round_meets_everything() {
    assert!(compare(&erring(Fault::None), 1, &Until::Count(20_000)));
}
