//! The comparison with a stand-in for the library: no difference where it answers as the original does, and a difference for
//! each way to err.

use std::collections::HashSet;

use entry::mock::{Fault, erring};
use entry::{
    Call, Decks, Until, WRONG, case, compare, must, must_dwelling, must_following, must_limits,
};

/// The first seed with a difference, and the difference.
fn difference(fault: Fault, seeds: impl IntoIterator<Item = u64>) -> Option<(u64, String)> {
    let library = erring(fault);
    let mut call = Call::default();
    seeds.into_iter().find_map(|seed| {
        let mut case = case(seed, Decks::Any);
        let reply = call.make(&mut case.rng, library, &case.deck, &case.sizes);
        let difference = call.difference(reply, &case.deck, &case.expected)?;
        Some((seed, difference))
    })
}

/// Seeds of decks that are drawn by chance.
const SEEDS: std::ops::Range<u64> = 100..2_100;

/// The fault is seen, and as what it is.
fn assert_seen(fault: Fault, seeds: impl IntoIterator<Item = u64>, expected: &str) {
    let Some((seed, difference)) = difference(fault, seeds) else {
        panic!("{fault:?} is not seen");
    };
    assert!(
        difference.contains(expected),
        "{fault:?} at seed {seed}: {difference}"
    );
}

#[test]
fn the_stand_in_has_no_difference() {
    assert_eq!(difference(Fault::None, SEEDS), None);
}

/// Decks that take long, in every mood of their tables.
#[test]
fn nor_has_it_at_the_limits() {
    assert_eq!(difference(Fault::None, 0..10), None);
}

#[test]
fn the_order_of_deferrals_is_free() {
    assert_eq!(difference(Fault::DeferralsTurned, SEEDS), None);
}

#[test]
fn replies() {
    assert_seen(Fault::OtherNumber, SEEDS, "the reply is");
    assert_seen(Fault::OtherLine, SEEDS, "the reply is");
    assert_seen(Fault::Accepts, SEEDS, "the reply is (0, 0)");
    assert_seen(Fault::Refuses, SEEDS, "the reply is (12, 0), not (0, 0)");
}

#[test]
fn records() {
    assert_seen(Fault::ClausesSwapped, SEEDS, "of the clause table");
    for back in 0..3 {
        let word = Fault::Word { place: 0, back };
        assert_seen(word, SEEDS, "of the clause table");
    }
    for back in 0..6 {
        let word = Fault::Word { place: 1, back };
        assert_seen(word, SEEDS, "of the atom table");
    }
    for back in 0..10 {
        let word = Fault::Word { place: 3, back };
        assert_seen(word, SEEDS, "of the table of numbers");
    }
}

#[test]
fn deferrals() {
    let faults = [
        Fault::DeferralLost,
        Fault::DeferralTwice,
        Fault::Word { place: 2, back: 0 },
        Fault::Word { place: 2, back: 1 },
    ];
    for fault in faults {
        assert_seen(fault, SEEDS, "the deferral table has other records");
    }
}

const TABLES: [&str; 5] = [
    "the clause table",
    "the atom table",
    "the deferral table",
    "the table of numbers",
    "scratch",
];

#[test]
fn zeros() {
    for (place, name) in TABLES.into_iter().enumerate() {
        if place != 3 {
            assert_seen(Fault::Behind(place), SEEDS, "not 0");
        }
        let left = Fault::LeftOnRefusal(place);
        assert_seen(left, SEEDS, &format!("byte 0 of {name} is"));
    }
}

#[test]
fn bytes_beside() {
    for offset in [-64, -1, 0, 63] {
        let side = if offset < 0 { "before" } else { "after" };
        for (place, name) in TABLES.into_iter().enumerate() {
            let beside = Fault::Beside { place, offset };
            assert_seen(beside, SEEDS, &format!("a byte {side} {name} was written"));
        }
        let told = format!("a byte {side} the deck was written");
        assert_seen(Fault::BesideDeck(offset), SEEDS, &told);
    }
    assert_seen(Fault::DeckChanged, SEEDS, "the deck was changed");
}

#[test]
fn sizes() {
    for wrong in 0..WRONG.len() {
        assert_seen(Fault::TakesWrongSize(wrong), SEEDS, "not (1, 0)");
    }
}

#[test]
fn ends() {
    for place in 0..3 {
        let less = Fault::OneRecordLess(place);
        assert_seen(less, SEEDS, "the reply is (12, ");
    }
    // The deck of this seed takes one million visits.
    assert_seen(Fault::OneVisitLess, [4_002], "the reply is (10, ");
}

#[test]
fn options() {
    for bit in [1, 2, 4, 8] {
        assert_seen(Fault::OptionIgnored(bit), SEEDS, "");
    }
    for fault in [Fault::TwoSteps, Fault::NotTurned] {
        assert_seen(fault, SEEDS, "");
    }
}

#[test]
fn a_short_comparison_misses_something() {
    let parts = [Decks::Dwelling, Decks::Limits, Decks::Following];
    for decks in parts.into_iter().chain([Decks::Any]) {
        let missed = compare(erring(Fault::None), decks, 20, &Until::Count(3));
        let differs = compare(erring(Fault::OtherNumber), decks, 20, &Until::Count(100));
        assert!(!missed && !differs);
    }
}

/// What a seed gives depends on nothing else.
#[test]
fn same_seed_same_case() {
    for seed in [0, 5, 700, 701, u64::MAX] {
        let (first, second) = (case(seed, Decks::Any), case(seed, Decks::Any));
        assert_eq!(
            (first.deck, first.sizes, first.expected, first.met),
            (second.deck, second.sizes, second.expected, second.met)
        );
    }
}

#[test]
fn no_name_stands_for_two_things() {
    let parts = [must_dwelling(), must_limits(), must_following()];
    for must in parts.into_iter().chain([must()]) {
        let names: HashSet<&String> = must.iter().collect();
        assert_eq!(names.len(), must.len());
    }
}

/// A round of seeds meets all that must be met. It takes a minute: `cargo test --release -- --ignored`.
#[test]
#[ignore = "takes long"]
fn a_round_meets_everything() {
    let rounds = [
        (Decks::Any, 8_000),
        (Decks::Dwelling, 20_000),
        (Decks::Limits, 4_000),
        (Decks::Following, 4_000),
    ];
    let good =
        rounds.map(|(decks, count)| compare(erring(Fault::None), decks, 1, &Until::Count(count)));
    assert_eq!(good, [true; 4]);
}
