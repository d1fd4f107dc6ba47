//! The second reading on what is written by hand.

use std::collections::HashSet;

use session::mock::{Fault, erring};
use session::steps::Player;
use session::written::all;
use session::{Reply, code, compare_written, tell};

/// What is written says what the second reading says; of a taking, that it is one.
#[test]
fn replies() {
    for written in all() {
        let mut player = Player::default();
        for (number, (step, reply)) in (1..).zip(&written.steps) {
            let table = player.lent(step);
            let expected = player.expected(step, &table);
            if let Reply::Of(did) = &expected.reply {
                let told = did.err().map_or(0, code);
                let [told, asked] = [told, *reply].map(tell);
                assert_eq!(told, asked, "{}, call {number}", written.name);
            }
            player.go_on(step, *reply, &expected.session);
        }
    }
}

/// Takings too, by the original behind the stand-in.
#[test]
fn the_stand_in_has_no_difference() {
    assert!(compare_written(&erring(Fault::None)));
}

/// What the calls written by hand must catch by themselves.
#[test]
fn faults() {
    for fault in [
        Fault::StartLeaves,
        Fault::StartLeavesAtSizes,
        Fault::LengthOneLess,
        Fault::AddBehindFirst,
        Fault::TwoAndThreeTurned,
        Fault::ConceptTaken,
        Fault::RefusedTextLeft,
        Fault::StrikeFromAxioms,
        Fault::NextStruck,
        Fault::LastNotLive,
        Fault::OptionsLimitOneMore,
        Fault::OptionsInRoles,
        Fault::TakeOfStart,
        Fault::TakeOptionsOfStart,
        Fault::ZerosAreThree,
        Fault::TailNotLookedAt,
        Fault::LastByteNotLookedAt,
        Fault::TextNotLookedAt,
        Fault::ScratchLeft,
        Fault::ScratchLeftOnRefusal,
        Fault::MoreAxiomsTaken,
        Fault::LongListsTaken,
        Fault::TooLongAtLine,
        Fault::TooLongLast,
        Fault::LengthOneLimitLess,
        Fault::LastAxiomLimitLess,
        Fault::NotLiveFirst,
        Fault::OptionsFirst,
    ] {
        assert!(!compare_written(&erring(fault)), "{fault:?} is not seen");
    }
}

#[test]
fn each_has_a_name_of_its_own() {
    let all = all();
    let names: HashSet<&String> = all.iter().map(|written| &written.name).collect();
    assert_eq!(names.len(), all.len());
}
