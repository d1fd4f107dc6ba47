//! Clauses that outlive the call, and iteration by value.

mod common;

use std::collections::HashSet;
use std::thread;

use common::{equivalent, texts, worked};
use gorvask::{Atom, Clause, Clausifier, Names, OwnedClause, Role, X};

#[test]
fn owned_clauses_outlive_the_clausifier() {
    let owned: Vec<OwnedClause> = {
        let mut clausifier = Clausifier::new();
        let clauses = clausifier.clausify(&worked()).expect("accepted");
        clauses.into_iter().map(OwnedClause::from).collect()
    };
    let text = thread::spawn(move || owned[0].to_string()).join();
    assert_eq!(text.expect("a thread that ends"), "A0(x) → ∃r0.A1(x)");
}

#[test]
fn an_owned_clause_is_the_clause() {
    let mut clausifier = Clausifier::new();
    let clauses = clausifier.clausify(&equivalent(3, 1)).expect("accepted");
    let owned: Vec<OwnedClause> = clauses.iter().map(Clause::into_owned).collect();
    for (place, (clause, ours)) in clauses.into_iter().zip(&owned).enumerate() {
        assert_eq!(ours.body(), clause.body().collect::<Vec<_>>());
        assert_eq!(ours.head(), clause.head().collect::<Vec<_>>());
        assert_eq!(ours.header(), clauses.header());
        assert_eq!(*ours, clause);
        assert_eq!(clause, *ours);
        assert_eq!(*ours, ours.clone());
        for other in &owned[..place] {
            assert_ne!(*other, clause);
            assert_ne!(other, ours);
        }
        assert_eq!(ours.to_string(), clause.to_string());
    }
    let set: HashSet<&OwnedClause> = owned.iter().chain(&owned).collect();
    assert_eq!(set.len(), 6);
}

#[test]
fn by_value_and_by_reference() {
    let mut clausifier = Clausifier::new();
    let clauses = clausifier.clausify(&equivalent(3, 1)).expect("accepted");
    let mut by_reference = Vec::new();
    for clause in &clauses {
        by_reference.push(clause.to_string());
    }
    let mut by_value = Vec::new();
    for clause in clauses {
        by_value.push(clause.to_string());
    }
    assert_eq!(by_reference, texts(clauses));
    assert_eq!(by_value, by_reference);
}

#[test]
fn atoms_roles_and_clauses_are_written() {
    let mut clausifier = Clausifier::new();
    let clauses = clausifier.clausify(&worked()).expect("accepted");
    let clause = clauses.get(0).expect("a clause");
    let exists = Atom::Exists(Role::Named(0), 1, X);
    assert_eq!(clause.head().next(), Some(exists));
    assert_eq!(exists.to_string(), "∃r0.C1(x)");
    assert_eq!(clause.to_string(), "A0(x) → ∃r0.A1(x)");
    let names: Names = "class 1 Signal\nrole 0 entry".parse().expect("names");
    assert_eq!(
        clause.with_names(&names).to_string(),
        "A0(x) → ∃entry.Signal(x)"
    );
    assert_eq!(
        clause.into_owned().with_names(&names).to_string(),
        "A0(x) → ∃entry.Signal(x)"
    );
}
