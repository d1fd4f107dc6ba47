//! Tables that are made larger where a deck needs it.

mod common;

use common::{deck, equivalent, refused, texts, worked};
use gorvask::{Clausifier, Sizes};

#[test]
fn tables_grow_to_what_the_deck_needs() {
    let mut clausifier = Clausifier::new();
    assert_eq!(clausifier.sizes(), Sizes::FIRST);
    let clauses = clausifier.clausify(&equivalent(128, 1)).expect("accepted");
    assert_eq!(clauses.len(), 128 * 127);
    let needed = Sizes {
        clauses: 128 * 127,
        atoms: 2 * 128 * 127,
        deferrals: 0,
    };
    assert_eq!(clauses.sizes(), needed);
    let last = clauses.get(128 * 127 - 1).expect("the last clause");
    assert_eq!(last.to_string(), "A127(x) → A126(x)");
    let grown = Sizes {
        clauses: 16_384,
        atoms: 32_768,
        deferrals: Sizes::FIRST.deferrals,
    };
    assert_eq!(clausifier.sizes(), grown);
    // They stay so.
    clausifier.clausify(&worked()).expect("accepted");
    assert_eq!(clausifier.sizes(), grown);
}

#[test]
fn the_answer_is_whole_after_growth() {
    let enough = Clausifier::with_sizes(Sizes::LARGEST)
        .clausify(&equivalent(128, 1))
        .map(texts);
    let grown = Clausifier::new().clausify(&equivalent(128, 1)).map(texts);
    assert!(enough.is_ok_and(|texts| grown == Ok(texts)));
}

#[test]
fn the_answer_is_whole_after_growth_from_uneven_tables() {
    let enough = Clausifier::with_sizes(Sizes::LARGEST)
        .clausify(&equivalent(40, 1))
        .map(texts);
    let mut clausifier = Clausifier::with_sizes(Sizes {
        clauses: 200,
        atoms: 4_096,
        deferrals: 0,
    });
    let grown = clausifier.clausify(&equivalent(40, 1)).map(texts);
    assert_eq!(enough.as_ref().map(Vec::len), Ok(1_560));
    assert_eq!(grown, enough);
    assert_eq!(clausifier.sizes().clauses, 1_600);
}

#[test]
fn just_enough_room_is_not_made_larger() {
    let enough = Sizes {
        clauses: 30,
        atoms: 60,
        deferrals: 0,
    };
    let six = |sizes: Sizes| {
        let mut clausifier = Clausifier::with_sizes(sizes);
        let clauses = clausifier.clausify(&equivalent(6, 1)).map(|c| c.len());
        assert_eq!(clauses, Ok(30));
        clausifier.sizes()
    };
    assert_eq!(six(enough), enough);
    let fewer_clauses = Sizes {
        clauses: 29,
        ..enough
    };
    assert_eq!(
        six(fewer_clauses),
        Sizes {
            clauses: 32,
            ..enough
        }
    );
    let fewer_atoms = Sizes {
        atoms: 59,
        ..enough
    };
    assert_eq!(
        six(fewer_atoms),
        Sizes {
            atoms: 64,
            ..enough
        }
    );
}

#[test]
fn fixed_tables_do_not_grow() {
    let mut clausifier = Clausifier::with_sizes(Sizes::LISTER);
    let refusal = clausifier
        .clausify_fixed(&equivalent(40, 1))
        .expect_err("refused");
    assert_eq!((refusal.number(), refusal.line()), (12, Some(42)));
    assert_eq!(clausifier.sizes(), Sizes::LISTER);
    let clauses = clausifier.clausify_fixed(&worked()).expect("accepted");
    assert_eq!(texts(clauses), ["A0(x) → ∃r0.A1(x)"]);
    let clauses = clausifier.clausify(&equivalent(40, 1)).expect("accepted");
    assert_eq!(clauses.len(), 40 * 39);
}

#[test]
fn deferrals_have_room_made_too() {
    let chains = 40;
    let mut rows = vec![vec![0, 0, 0, 1, 0]];
    rows.extend(vec![vec![27, 0, 0, 0, 0]; chains]);
    let mut clausifier = Clausifier::with_sizes(Sizes {
        deferrals: 16,
        ..Sizes::FIRST
    });
    let clauses = clausifier.clausify(&deck(&rows)).expect("accepted");
    let mut lines: Vec<u32> = clauses.deferrals().filter_map(|d| d.line).collect();
    lines.sort_unstable();
    assert!(lines.into_iter().eq(2..42));
    assert_eq!(
        clausifier.sizes(),
        Sizes {
            deferrals: 64,
            ..Sizes::FIRST
        }
    );
}

#[test]
fn from_no_records_at_all() {
    let none = Sizes {
        clauses: 0,
        atoms: 0,
        deferrals: 0,
    };
    let mut clausifier = Clausifier::with_sizes(none);
    let clauses = clausifier.clausify(&worked()).expect("accepted");
    assert_eq!(texts(clauses), ["A0(x) → ∃r0.A1(x)"]);
}

#[test]
fn the_largest_tables_are_used_to_their_end() {
    // 4 × 128 × 127 clauses by equivalence, and 512 by irreflexive roles.
    let mut text = equivalent(128, 4);
    let header = deck(&[vec![0, 128, 0, 1, 0]]);
    text.splice(..header.len(), header);
    text.extend(deck(&vec![vec![29, 0]; 512]));
    let mut clausifier = Clausifier::new();
    let clauses = clausifier.clausify(&text).expect("accepted");
    assert_eq!(clauses.len(), 65_536);
    let grown = Sizes {
        clauses: 65_536,
        atoms: 131_072,
        ..Sizes::FIRST
    };
    assert_eq!(clausifier.sizes(), grown);
    // One more has no room.
    text.extend(deck(&[vec![29, 0]]));
    let refusal = clausifier.clausify(&text).expect_err("refused");
    assert_eq!((refusal.number(), refusal.line()), (12, Some(646)));
    assert_eq!(clausifier.sizes(), grown);
}

#[test]
fn a_refused_deck_leaves_the_sizes() {
    for (number, line, text) in refused() {
        let mut clausifier = Clausifier::new();
        let refusal = clausifier.clausify(&text).expect_err("refused");
        assert_eq!((refusal.number(), refusal.line()), (number, line));
        assert_eq!(clausifier.sizes(), Sizes::FIRST);
    }
    let mut clausifier = Clausifier::new();
    let refusal = clausifier
        .clausify(&equivalent(128, 5))
        .expect_err("refused");
    assert_eq!((refusal.number(), refusal.line()), (12, Some(134)));
    assert_eq!(clausifier.sizes(), Sizes::FIRST);
}

#[test]
fn sizes_are_kept_to_the_largest() {
    let beyond = Sizes {
        clauses: 1 << 20,
        atoms: 1 << 20,
        deferrals: 1 << 20,
    };
    let mut clausifier = Clausifier::with_sizes(beyond);
    assert_eq!(clausifier.sizes(), Sizes::LARGEST);
    assert_eq!(clausifier.clausify(&worked()).map(|c| c.len()), Ok(1));
}
