//! Document 01's layout cases and wrong wirings, as the original answers them.

mod common;

use common::Lines;
use deck::{Axiom, Concept};
use oracle::Limits;

#[test]
fn no_axiom() {
    let listing = Lines::new(3, 2, 1, 3).listing();
    assert_eq!((listing.clauses.len(), listing.numbers()), (0, [0; 10]));
}

#[test]
fn some_in_the_antecedent() {
    let mut lines = Lines::new(2, 0, 1, 3);
    let (a, b) = (lines.class(0), lines.class(1));
    let some = lines.some(0, a);
    lines.sub(some, b);
    assert_eq!(lines.clauses(), ["r0(X,1) A0(1) -> A1(X)"]);
}

#[test]
fn all_in_the_head() {
    let mut lines = Lines::new(2, 0, 1, 3);
    let (a, b) = (lines.class(0), lines.class(1));
    let all = lines.all(0, b);
    lines.sub(a, all);
    assert_eq!(lines.clauses(), ["A0(X) r0(X,1) -> A1(1)"]);
}

/// Doubled body atoms stay.
#[test]
fn not_in_the_head() {
    let mut lines = Lines::new(1, 0, 0, 3);
    let a = lines.class(0);
    let not = lines.not(a);
    lines.sub(a, not);
    assert_eq!(lines.clauses(), ["A0(X) A0(X) ->"]);
}

#[test]
fn top_in_the_antecedent() {
    let mut lines = Lines::new(1, 0, 0, 3);
    let (top, a) = (lines.top(), lines.class(0));
    lines.sub(top, a);
    assert_eq!(lines.clauses(), ["-> A0(X)"]);
}

#[test]
fn union_of_no_members() {
    let mut lines = Lines::new(1, 0, 0, 3);
    lines.axiom(Axiom::DisjointUnion(0, vec![]));
    assert_eq!(lines.clauses(), ["A0(X) ->"]);
}

#[test]
fn chains() {
    for length in [0, 1, 3, 128] {
        let mut lines = Lines::new(0, 0, 1, 3);
        lines.axiom(Axiom::Chain(0, vec![0; length]));
        let listing = lines.listing();
        assert_eq!(
            (listing.clauses.len(), listing.deferrals),
            (0, vec![(2, 4)])
        );
        assert_eq!(listing.stats, [0, 0, 0, 0, 0, 1, 0, 0]);
    }
    let mut lines = Lines::new(0, 0, 2, 3);
    lines.axiom(Axiom::Chain(2, vec![0, 1]));
    assert_eq!(lines.clauses(), ["r0(X,1) r0-(1,2) -> r1(X,2)"]);
}

#[test]
fn reflexive_under_some() {
    let mut lines = Lines::new(2, 0, 1, 3);
    let (a, b) = (lines.class(0), lines.class(1));
    let some = lines.some(0, a);
    lines.sub(some, b).axiom(Axiom::Reflexive(0));
    assert_eq!(
        lines.clauses(),
        ["r0(X,1) A0(1) -> A1(X)", "A0(X) -> A1(X)"]
    );
}

#[test]
fn reflexive_under_max() {
    let mut lines = Lines::new(2, 0, 1, 3);
    let (a, b) = (lines.class(0), lines.class(1));
    let most = lines.max(2, 0, b);
    lines.sub(a, most).axiom(Axiom::Reflexive(0));
    assert_eq!(
        lines.clauses(),
        ["A0(X) -> max2.r0.A1(X)", "A0(X) r0(X,1) -> r0(X,X)"]
    );
}

/// Reflexivity goes up role inclusions and along equivalent roles, by mapped ids.
#[test]
fn reflexive_by_inclusion() {
    let mut lines = Lines::new(2, 0, 4, 3);
    let (a, b) = (lines.class(0), lines.class(1));
    let some = lines.some(6, a);
    lines
        .sub(some, b)
        .axiom(Axiom::EquivalentRoles(vec![3, 6]))
        .axiom(Axiom::RoleInclusion(1, 2))
        .axiom(Axiom::Reflexive(0));
    assert_eq!(
        lines.clauses(),
        ["r3(X,1) A0(1) -> A1(X)", "A0(X) -> A1(X)"]
    );
}

/// The filler's name is included in the filler, and no more.
#[test]
fn max_over_a_compound() {
    let mut lines = Lines::new(3, 0, 1, 3);
    let list = lines.classes(1..3);
    let (a, filler) = (lines.class(0), lines.and(&list));
    let most = lines.max(2, 0, filler);
    lines.sub(a, most);
    assert_eq!(
        lines.clauses(),
        ["A3(X) -> A1(X)", "A3(X) -> A2(X)", "A0(X) -> max2.r0.A3(X)"]
    );
    assert_eq!(lines.listing().fresh, 1);
}

#[test]
fn inverse_declaration() {
    let mut lines = Lines::new(2, 0, 2, 3);
    let (a, b) = (lines.class(0), lines.class(1));
    let (some, turned) = (lines.some(2, b), lines.some(3, b));
    lines
        .sub(a, some)
        .sub(a, turned)
        .axiom(Axiom::Inverse(0, 2));
    assert_eq!(
        lines.clauses(),
        ["A0(X) -> some.r0-.A1(X)", "A0(X) -> some.r0.A1(X)"]
    );
}

/// r1 stands for r0 turned and r0 for r2 turned, but r1 does not become r2.
#[test]
fn inverse_map_is_one_step_deep() {
    let mut lines = Lines::new(2, 0, 3, 3);
    let (a, b) = (lines.class(0), lines.class(1));
    for role in [0, 2, 4] {
        let some = lines.some(role, b);
        lines.sub(a, some);
    }
    lines
        .axiom(Axiom::Inverse(0, 2))
        .axiom(Axiom::Inverse(4, 0));
    assert_eq!(
        lines.clauses(),
        [
            "A0(X) -> some.r2-.A1(X)",
            "A0(X) -> some.r0-.A1(X)",
            "A0(X) -> some.r2.A1(X)"
        ]
    );
}

/// B includes an Or of `n` classes.
fn or_of(n: u32) -> Lines {
    let mut lines = Lines::new(n + 1, 0, 0, 3);
    let list = lines.classes(0..n);
    let (or, b) = (lines.or(&list), lines.class(n));
    lines.sub(or, b);
    lines
}

#[test]
fn or_of_64_and_65() {
    let listing = or_of(64).listing();
    assert_eq!((listing.clauses.len(), listing.fresh), (64, 0));
    assert_eq!(or_of(64).clauses()[63], "A63(X) -> A64(X)");
    let listing = or_of(65).listing();
    assert_eq!(
        (
            listing.clauses.len(),
            listing.fresh,
            listing.deferrals.len()
        ),
        (66, 1, 0)
    );
    let clauses = or_of(65).clauses();
    assert_eq!(
        (clauses[64].as_str(), clauses[65].as_str()),
        ("A66(X) A64(X) ->", "-> A65(X) A66(X)")
    );
}

/// B includes an And of two Ors of `n` classes.
fn and_of_ors(n: u32) -> Lines {
    let mut lines = Lines::new(2 * n + 1, 0, 0, 3);
    let (first, second) = (lines.classes(0..n), lines.classes(n..2 * n));
    let ors = [lines.or(&first), lines.or(&second)];
    let (and, b) = (lines.and(&ors), lines.class(2 * n));
    lines.sub(and, b);
    lines
}

#[test]
fn and_of_ors_of_8_and_9() {
    let listing = and_of_ors(8).listing();
    assert_eq!(
        (
            listing.clauses.len(),
            listing.fresh,
            listing.deferrals.len()
        ),
        (64, 0, 0)
    );
    assert_eq!(and_of_ors(8).clauses()[9], "A1(X) A9(X) -> A16(X)");
    let lines = and_of_ors(9);
    let listing = lines.listing();
    assert_eq!((listing.clauses.len(), listing.fresh), (0, 0));
    assert_eq!(listing.deferrals, [(lines.last_line(), 5)]);
}

/// B includes an And of `n` Somes with class fillers.
fn and_of_somes(n: u32, options: u32) -> Lines {
    let mut lines = Lines::new(n + 1, 0, 1, options);
    let fillers = lines.classes(0..n);
    let somes: Vec<u32> = fillers
        .iter()
        .map(|&filler| lines.some(0, filler))
        .collect();
    let (and, b) = (lines.and(&somes), lines.class(n));
    lines.sub(and, b);
    lines
}

#[test]
fn seven_and_eight_somes() {
    for options in [1, 3] {
        let listing = and_of_somes(7, options).listing();
        assert_eq!((listing.clauses.len(), listing.fresh), (1, 0));
        assert_eq!(listing.stats, [1, 1, 0, 0, 0, 0, 0, 0]);
        let listing = and_of_somes(8, options).listing();
        assert_eq!((listing.clauses.len(), listing.fresh), (9, 8));
        assert_eq!(listing.stats, [9, 9, 0, 0, 0, 0, 1, 0]);
    }
    let clauses = and_of_somes(8, 3).clauses();
    assert_eq!(
        clauses[0],
        "A9(X) A10(X) A11(X) A12(X) A13(X) A14(X) A15(X) A16(X) -> A8(X)"
    );
    assert_eq!(
        (clauses[1].as_str(), clauses[8].as_str()),
        ("r0(X,1) A0(1) -> A9(X)", "r0(X,1) A7(1) -> A16(X)")
    );
    // Without the option the clause stays, and is counted as refused by the reasoner.
    assert_eq!(and_of_somes(8, 2).listing().stats, [1, 1, 0, 0, 0, 0, 0, 1]);
}

/// Twelve reflexive Somes under one class unfold in 2^12 - 1 ways; each further inclusion adds one clause.
fn unfolding(more: u32) -> Lines {
    let mut lines = Lines::new(13 + more, 0, 1, 2);
    let fillers = lines.classes(0..12 + more);
    let somes: Vec<u32> = fillers
        .iter()
        .map(|&filler| lines.some(0, filler))
        .collect();
    let (and, b) = (lines.and(&somes[..12]), lines.class(12 + more));
    lines.sub(and, b).axiom(Axiom::Reflexive(0));
    for &some in &somes[12..] {
        lines.sub(some, b);
    }
    lines
}

#[test]
fn unfolding_stops_after_4096() {
    let listing = unfolding(1).listing();
    assert_eq!(
        (listing.clauses.len(), listing.deferrals.len()),
        (2 + 4096, 0)
    );
    for more in [2, 3] {
        let listing = unfolding(more).listing();
        assert_eq!(listing.clauses.len(), 1 + more as usize + 4096);
        assert_eq!((listing.deferrals, listing.stats[5]), (vec![(0, 9)], 1));
    }
    // The derived clauses stand behind the others, the last inclusion's first.
    assert_eq!(unfolding(1).clauses()[2], "A12(X) -> A13(X)");
    assert_eq!(
        unfolding(1).clauses()[3],
        "A0(X) r0(X,2) A1(2) r0(X,3) A2(3) r0(X,4) A3(4) r0(X,5) A4(5) r0(X,6) A5(6) \
        r0(X,7) A6(7) r0(X,8) A7(8) r0(X,9) A8(9) r0(X,10) A9(10) r0(X,11) A10(11) r0(X,12) A11(12) -> A13(X)"
    );
    assert_eq!(
        unfolding(1).refusal(&Limits::LISTER),
        deck::Refusal {
            number: 12,
            line: 0
        }
    );
}

/// With 4,096 clauses derived, what adds none is no reason to defer, and after a deferral the counted loops still come.
#[test]
fn at_the_cap_of_unfolding() {
    let mut lines = unfolding(1);
    let repeated = lines.0.axioms[2].clone();
    lines.0.axioms.insert(0, repeated);
    lines.0.axioms.insert(0, Axiom::Transitive(0));
    let listing = lines.listing();
    assert_eq!(
        (listing.clauses.len(), listing.deferrals.len()),
        (4 + 4096, 0)
    );
    let mut lines = unfolding(2);
    let a = lines.class(0);
    let most = lines.max(1, 0, a);
    lines.sub(a, most);
    let listing = lines.listing();
    assert_eq!(
        (listing.clauses.len(), listing.deferrals),
        (4 + 4096 + 1, vec![(0, 9)])
    );
}

/// Each use of a compound takes a name of its own.
#[test]
fn names_are_not_shared() {
    let mut lines = Lines::new(4, 0, 1, 3);
    let list = lines.classes(2..4);
    let (a, b, and) = (lines.class(0), lines.class(1), lines.and(&list));
    let some = lines.some(0, and);
    lines.sub(a, some).sub(b, some);
    let clauses = lines.clauses();
    assert_eq!(
        (clauses[2].as_str(), clauses[5].as_str()),
        ("A0(X) -> some.r0.A4(X)", "A1(X) -> some.r0.A5(X)")
    );
}

/// The normal form of an assertion takes pool ids, by which lists are sorted.
#[test]
fn assertions_take_pool_ids() {
    let clauses = |asserted: bool| {
        let mut lines = Lines::new(3, 1, 1, 3);
        let (a, b, c) = (lines.class(0), lines.class(1), lines.class(2));
        let (and, some) = (lines.and(&[b, c]), lines.some(0, c));
        let (head, not) = (lines.not(and), lines.not(some));
        if asserted {
            lines.axiom(Axiom::ClassAssertion(not, 0));
        }
        lines.sub(a, head);
        lines.clauses()
    };
    assert_eq!(
        clauses(false),
        ["A4(X) A1(X) ->", "A5(X) A2(X) ->", "A0(X) -> A4(X) A5(X)"]
    );
    assert_eq!(
        clauses(true),
        ["A4(X) A2(X) ->", "A5(X) A1(X) ->", "A0(X) -> A4(X) A5(X)"]
    );
}

/// Variables run on between the heads of one inclusion, and start again in the next.
#[test]
fn variables_of_one_inclusion() {
    let mut lines = Lines::new(2, 0, 2, 3);
    let (a, b) = (lines.class(0), lines.class(1));
    let alls = [lines.all(0, b), lines.all(2, b)];
    let and = lines.and(&alls);
    lines.sub(a, and).sub(a, alls[1]);
    assert_eq!(
        lines.clauses(),
        [
            "A0(X) r0(X,1) -> A1(1)",
            "A0(X) r1(X,2) -> A1(2)",
            "A0(X) r1(X,1) -> A1(1)"
        ]
    );
}

#[test]
fn data_keys() {
    let mut lines = Lines::new(3, 1, 1, 2);
    lines.0.keys = vec![1, 1];
    let (a, key, other) = (lines.class(0), lines.class(1), lines.class(2));
    let counted = [
        lines.min(2, 0, key),
        lines.max(2, 0, key),
        lines.min(2, 0, other),
    ];
    let nominal = lines.concept(Concept::Nominal(0));
    let or = lines.or(&[counted[0], nominal]);
    lines
        .sub(a, counted[0])
        .sub(a, counted[1])
        .sub(a, counted[2])
        .sub(a, or);
    // As heads they are dropped without a deferral; as a disjunct the key is named, and the name has no clause.
    assert_eq!(
        lines.clauses(),
        ["A0(X) -> min2.r0.A2(X)", "A0(X) -> A4(X) A3(X)"]
    );
    assert_eq!(lines.listing().deferrals, []);
}
