//! For which decks it is promised that no rule is lost or weakened.

mod common;

use common::{deck, worked};
use gorvask::{Clausifier, Deferral, DeferralKind, Provisos};

fn provisos(rows: &[Vec<u32>]) -> Provisos {
    let mut clausifier = Clausifier::new();
    let clauses = clausifier.clausify(&deck(rows)).expect("accepted");
    clauses.provisos()
}

#[test]
fn a_plain_deck_is_promised() {
    let mut clausifier = Clausifier::new();
    let clauses = clausifier.clausify(&worked()).expect("accepted");
    assert_eq!(clauses.provisos(), Provisos::default());
    assert!(clauses.provisos().are_met());
}

#[test]
fn deferrals_in_the_order_in_which_they_arose() {
    // Two chains of three and one of one; then a disjoint union with a member that is no class.
    let found = provisos(&[
        vec![0, 2, 0, 1, 3],
        vec![3, 0],
        vec![10, 0, 0],
        vec![27, 0, 0, 0, 0],
        vec![27, 0, 0],
        vec![24, 1, 0, 1],
    ]);
    let deferral = |line, kind| Deferral {
        line: Some(line),
        kind,
    };
    assert_eq!(
        found.deferrals,
        [
            deferral(4, DeferralKind::RoleChainLenNe2),
            deferral(5, DeferralKind::RoleChainLenNe2),
            deferral(6, DeferralKind::DisjointUnionMember),
            deferral(6, DeferralKind::DisjointUnionCovering),
        ]
    );
    assert!(found.data_keys.is_empty() && found.fresh_at_most.is_none());
    assert!(!found.are_met());
}

#[test]
fn data_keys_of_each_deck_anew() {
    let rows = |keys: &[u32]| {
        let mut rows = vec![vec![0, 5, 0, 0, 3]];
        rows.extend(keys.iter().map(|&key| vec![14, key]));
        rows.extend([vec![3, 4], vec![3, 0], vec![21, 0, 1]]);
        deck(&rows)
    };
    let mut clausifier = Clausifier::new();
    for (keys, found) in [(&[4, 1, 4][..], &[1, 4][..]), (&[], &[]), (&[0], &[0])] {
        let clauses = clausifier.clausify(&rows(keys)).expect("accepted");
        assert_eq!(clauses.provisos().data_keys, found);
        assert_eq!(clauses.provisos().are_met(), found.is_empty());
    }
}

/// A0 below at most 1 r0 of the concept of line `filler`, behind an inclusion that gives one clause.
fn at_most(options: u32, filler: u32) -> Provisos {
    provisos(&[
        vec![0, 3, 1, 1, options],
        vec![3, 0],             // 0
        vec![3, 1],             // 1
        vec![3, 2],             // 2
        vec![4, 0],             // 3: {i0}
        vec![1],                // 4: Top
        vec![7, 1, 2],          // 5: A1 and A2
        vec![12, 1, 0, filler], // 6
        vec![11, 2, 0, 5],      // 7: at least 2 r0 (A1 and A2)
        vec![21, 0, 1],
        vec![21, 0, 7],
        vec![21, 0, 6],
    ])
}

#[test]
fn an_at_most_over_a_fresh_class() {
    for filler in [1, 3, 4] {
        assert_eq!(at_most(3, filler), Provisos::default(), "filler {filler}");
    }
    for options in 0..4 {
        // Clause 0 is the inclusion's; 1 to 3 are of the at-least, whose fresh class does no harm; 4 and 5 name A1 and A2.
        let found = at_most(options, 5);
        assert_eq!(found.fresh_at_most, Some(6));
        assert!(found.deferrals.is_empty() && found.data_keys.is_empty() && !found.are_met());
    }
}

/// There it stands for just what it names.
#[test]
fn an_at_most_over_a_fresh_class_with_option_4() {
    for options in 4..8 {
        for filler in [1, 3, 4, 5] {
            assert_eq!(at_most(options, filler), Provisos::default());
        }
    }
}

/// A0 below at most 1 r0 of an Or of nine classes and an Or of nine others: with option 4 that this is below its name is
/// deferred.
#[test]
fn with_option_4_a_deferral_counts() {
    let ors = [1, 10].map(|first| {
        let members: Vec<u32> = (first..first + 9).collect();
        [&[8], &members[..]].concat()
    });
    let mut rows = vec![vec![0, 19, 0, 1, 4]];
    rows.extend((0..19).map(|class| vec![3, class]));
    rows.extend(ors);
    rows.extend([vec![7, 19, 20], vec![12, 1, 0, 21], vec![21, 0, 22]]);
    let found = provisos(&rows);
    assert_eq!(
        found.deferrals,
        [Deferral {
            line: Some(25),
            kind: DeferralKind::Antecedent,
        }]
    );
    assert!(found.fresh_at_most.is_none() && !found.are_met());
}
