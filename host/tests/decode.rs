//! What the tables hold, as Rust values.

mod common;

use common::{deck, texts, worked};
use gorvask::{Atom, ClassName, Clausifier, Deferral, DeferralKind, Header, Role, Statistics, X};

#[test]
fn the_worked_deck() {
    let mut clausifier = Clausifier::new();
    let clauses = clausifier.clausify(&worked()).expect("accepted");
    assert_eq!((clauses.len(), clauses.is_empty()), (1, false));
    let clause = clauses.get(0).expect("a clause");
    assert_eq!(clause.body().collect::<Vec<_>>(), [Atom::Class(0, X)]);
    assert_eq!(
        clause.head().collect::<Vec<_>>(),
        [Atom::Exists(Role::Named(0), 1, X)]
    );
    assert_eq!(clauses.get(1), None);
    let statistics = Statistics {
        total: 1,
        horn: 1,
        with_exists_head: 1,
        ..Statistics::default()
    };
    assert_eq!(clauses.statistics(), statistics);
    assert_eq!((clauses.fresh_ids(), clauses.visits()), (0, 6));
    assert_eq!(clauses.deferrals().len(), 0);
    let header = Header {
        classes: 3,
        individuals: 0,
        roles: 1,
        options: 3,
    };
    assert_eq!(clauses.header(), header);
}

/// Every kind of atom but Equal, which no deck gives; individuals, fresh classes, inverse roles, empty body and head.
fn every_kind() -> Vec<u8> {
    deck(&[
        vec![0, 2, 1, 2, 3],
        vec![3, 0],           // 0: A0
        vec![3, 1],           // 1: A1
        vec![4, 0],           // 2: {i0}
        vec![9, 1, 2],        // 3: Some r0⁻ {i0}
        vec![12, 2, 0, 1],    // 4: Max 2 r0 A1
        vec![1],              // 5: Top
        vec![11, 3, 2, 5],    // 6: Min 3 r1 Top
        vec![8, 1, 3, 4],     // 7: 1 or 3 or 4
        vec![7, 1, 2],        // 8: A1 and {i0}
        vec![12, 1, 2, 8],    // 9: Max 1 r1 (A1 and {i0})
        vec![9, 3, 0],        // 10: Some r1⁻ A0
        vec![21, 0, 7],       // line 13
        vec![21, 0, 6],       // line 14
        vec![21, 0, 9],       // line 15
        vec![21, 10, 1],      // line 16
        vec![30, 0],          // line 17: asymmetric r0
        vec![21, 5, 0],       // line 18
        vec![27, 0, 0, 2, 0], // line 19: a chain of three
    ])
}

#[test]
fn every_kind_of_atom() {
    let mut clausifier = Clausifier::new();
    let clauses = clausifier.clausify(&every_kind()).expect("accepted");
    assert_eq!(
        texts(clauses),
        [
            "A0(x) → A1(x) ∨ ∃r0⁻.{i0}(x) ∨ ≤2 r0.A1(x)",
            "A0(x) → ≥3 r1.⊤(x)",
            "Q0(x) → A1(x)",
            "Q0(x) → {i0}(x)",
            "A0(x) → ≤1 r1.Q0(x)",
            "r1⁻(x,y1), A0(y1) → A1(x)",
            "r0(x,y1), r0(y1,x) → ⊥",
            "⊤ → A0(x)",
        ]
    );
    let atoms = |index: usize| -> Vec<Atom> {
        let clause = clauses.get(index).expect("a clause");
        clause.body().chain(clause.head()).collect()
    };
    assert_eq!(
        atoms(1),
        [Atom::Class(0, X), Atom::AtLeast(Role::Named(1), None, 3, X)]
    );
    assert_eq!(
        atoms(4),
        [
            Atom::Class(0, X),
            Atom::AtMost(Role::Named(1), Some(3), 1, X)
        ]
    );
    assert_eq!(
        atoms(5),
        [
            Atom::Role(Role::Inverse(1), X, 1),
            Atom::Class(0, 1),
            Atom::Class(1, X)
        ]
    );
    assert_eq!(clauses.class_name(2), ClassName::Individual(0));
    assert_eq!(clauses.class_name(3), ClassName::Fresh(0));
}

#[test]
fn numbers_and_deferrals() {
    let mut clausifier = Clausifier::new();
    let clauses = clausifier.clausify(&every_kind()).expect("accepted");
    let statistics = Statistics {
        total: 8,
        horn: 7,
        disjunctive: 1,
        bottom_headed: 1,
        with_exists_head: 1,
        deferred: 1,
        ..Statistics::default()
    };
    assert_eq!(clauses.statistics(), statistics);
    assert_eq!(clauses.fresh_ids(), 1);
    let deferrals: Vec<Deferral> = clauses.deferrals().collect();
    let chain = Deferral {
        line: Some(19),
        kind: DeferralKind::RoleChainLenNe2,
    };
    assert_eq!(deferrals, [chain]);
}

#[test]
fn iterators_know_their_length() {
    let mut clausifier = Clausifier::new();
    let clauses = clausifier.clausify(&every_kind()).expect("accepted");
    let mut iter = clauses.iter();
    for left in (0..clauses.len()).rev() {
        let clause = iter.next().expect("a clause");
        assert_eq!(iter.len(), left);
        assert_eq!(clause.body().len(), clause.body().count());
        assert_eq!(clause.head().len(), clause.head().count());
    }
    assert_eq!(iter.next(), None);
    assert_eq!((&clauses).into_iter().count(), clauses.len());
}

#[test]
fn a_clause_without_atoms_is_a_clause() {
    let top_below_bot = deck(&[vec![0, 0, 0, 0, 0], vec![1], vec![2], vec![21, 0, 1]]);
    let mut clausifier = Clausifier::new();
    let clauses = clausifier.clausify(&top_below_bot).expect("accepted");
    assert_eq!(texts(clauses), ["⊤ → ⊥"]);
}

#[test]
fn a_deck_without_axioms() {
    let mut clausifier = Clausifier::new();
    let clauses = clausifier
        .clausify(&deck(&[vec![0, 0, 0, 0, 0]]))
        .expect("accepted");
    assert!(clauses.is_empty());
    assert_eq!(clauses.iter().next(), None);
    assert_eq!(clauses.visits(), 0);
    assert_eq!(format!("{clauses:?}"), "[]");
}
