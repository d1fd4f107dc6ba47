//! Facts about the original that document 01's readers lean on.

mod common;

use common::Lines;
use deck::{Axiom, Concept};

#[test]
fn top_under_bot_is_the_empty_clause() {
    let mut lines = Lines::new(0, 0, 0, 3);
    let (top, bot) = (lines.top(), lines.bot());
    lines.sub(top, bot);
    assert_eq!(lines.clauses(), ["->"]);
    assert_eq!(lines.listing().clause_table(), [0, 0, 0]);
    assert_eq!(lines.listing().stats, [1, 1, 0, 1, 0, 0, 0, 0]);
}

#[test]
fn some_top_takes_a_name_without_a_clause() {
    let mut lines = Lines::new(1, 1, 1, 3);
    let (a, top) = (lines.class(0), lines.top());
    let some = lines.some(0, top);
    lines.sub(a, some);
    assert_eq!(lines.clauses(), ["A0(X) -> some.r0.A2(X)"]);
    assert_eq!(lines.listing().fresh, 1);
}

/// The second member of a pair is encoded even if the first fails; its variables run on.
#[test]
fn disjoint_pairs() {
    let mut lines = Lines::new(2, 0, 2, 3);
    let (a, bot) = (lines.class(0), lines.bot());
    let somes = [lines.some(0, a), lines.some(2, a)];
    lines.axiom(Axiom::DisjointClasses(vec![somes[0], bot, somes[1]]));
    assert_eq!(lines.clauses(), ["r0(X,1) A0(1) r1(X,2) A0(2) ->"]);
    let listing = lines.listing();
    assert_eq!(listing.deferrals, [(lines.last_line(), 1); 2]);
    // Normal forms 2 + 1 + 2; pairs (2 + 1), (2 + 2), (1 + 2).
    assert_eq!(listing.visits, 5 + 3 + 4 + 3);
}

/// Pairs, members, covering; what cannot be encoded defers as a member, not as a pair.
#[test]
fn disjoint_unions() {
    let mut lines = Lines::new(3, 0, 1, 3);
    let (a, b, bot) = (lines.class(0), lines.class(1), lines.bot());
    lines
        .axiom(Axiom::DisjointUnion(2, vec![a, b]))
        .axiom(Axiom::DisjointUnion(2, vec![a, bot]));
    assert_eq!(
        lines.clauses(),
        [
            "A0(X) A1(X) ->",
            "A0(X) -> A2(X)",
            "A1(X) -> A2(X)",
            "A2(X) -> A0(X) A1(X)",
            "A0(X) -> A2(X)"
        ]
    );
    assert_eq!(lines.listing().deferrals, [(6, 2), (6, 3)]);
}

/// A hard antecedent is encoded whole, part by part, and as the soft And.
#[test]
fn hard_antecedents() {
    let mut lines = Lines::new(3, 0, 1, 3);
    let (a, b, c) = (lines.class(0), lines.class(1), lines.class(2));
    let all = lines.all(0, b);
    let and = lines.and(&[a, all]);
    lines.sub(and, c);
    assert_eq!(
        lines.clauses(),
        ["A3(X) A1(X) ->", "A0(X) -> A2(X) some.r0.A3(X)"]
    );
    // Normal forms 4 + 1; the And, its two parts; each part; All and B negated; A; Or, C, Some, Not B named, its head.
    assert_eq!(lines.listing().visits, 5 + 3 + 2 + 2 + 1 + 5);
}

/// Without a soft part the clause has no body.
#[test]
fn purely_hard_antecedents() {
    let mut lines = Lines::new(2, 0, 1, 3);
    let (a, b) = (lines.class(0), lines.class(1));
    let not = lines.not(a);
    lines.sub(not, b);
    assert_eq!(lines.clauses(), ["-> A0(X) A1(X)"]);
}

/// Equal role codes make no clause; equal mapped roles do.
#[test]
fn disjoint_roles() {
    let mut lines = Lines::new(0, 0, 2, 3);
    lines
        .axiom(Axiom::Inverse(0, 2))
        .axiom(Axiom::DisjointRoles(vec![0, 0, 3]));
    assert_eq!(lines.clauses(), ["r0(X,1) r0(X,1) ->"; 2]);
}

#[test]
fn role_characteristics() {
    let mut lines = Lines::new(0, 0, 1, 3);
    lines
        .axiom(Axiom::Transitive(1))
        .axiom(Axiom::Irreflexive(0))
        .axiom(Axiom::Asymmetric(0));
    assert_eq!(
        lines.clauses(),
        [
            "r0-(X,1) r0-(1,2) -> r0-(X,2)",
            "r0(X,X) ->",
            "r0(X,1) r0(1,X) ->"
        ]
    );
}

/// Unfolding an irreflexive reflexive role gives the empty clause; a derived tautology or self-loop is left out.
#[test]
fn unfolded_role_axioms() {
    let mut lines = Lines::new(0, 0, 1, 3);
    lines
        .axiom(Axiom::Reflexive(0))
        .axiom(Axiom::Irreflexive(0))
        .axiom(Axiom::Transitive(0));
    assert_eq!(
        lines.clauses(),
        ["r0(X,X) ->", "r0(X,1) r0(1,2) -> r0(X,2)", "->"]
    );
}

/// A derived clause repeats no other derived one, but it may repeat an axiom's.
#[test]
fn repeats_of_unfolding() {
    let mut lines = Lines::new(2, 0, 1, 3);
    let (a, b) = (lines.class(0), lines.class(1));
    let some = lines.some(0, a);
    lines.sub(a, b).sub(some, b).sub(some, b);
    lines.axiom(Axiom::Reflexive(0));
    let (plain, folded) = ("A0(X) -> A1(X)", "r0(X,1) A0(1) -> A1(X)");
    assert_eq!(lines.clauses(), [plain, folded, folded, plain]);
}

/// Likewise a counted loop.
#[test]
fn repeats_of_counted_loops() {
    let mut lines = Lines::new(2, 0, 1, 3);
    let (a, b, top) = (lines.class(0), lines.class(1), lines.top());
    let own = lines.concept(Concept::SelfRestriction(0));
    let (some, most) = (lines.some(0, top), lines.max(2, 0, b));
    let and = lines.and(&[a, some]);
    lines.sub(and, own).sub(a, most).sub(a, most);
    lines.axiom(Axiom::Reflexive(0));
    let (counted, looped) = ("A0(X) -> max2.r0.A1(X)", "A0(X) r0(X,1) -> r0(X,X)");
    assert_eq!(lines.clauses(), [looped, counted, counted, looped]);
}

/// B includes an And of classes A10 and on and of Somes over A0 and on, in this order.
fn wide(classes: u32, somes: u32) -> Lines {
    let mut lines = Lines::new(20, 0, 2, 1);
    let mut list = lines.classes(10..10 + classes);
    for id in 0..somes {
        let class = lines.class(id);
        list.push(lines.some(0, class));
    }
    lines.and(&list);
    lines
}

/// The root's atoms come first, then the branches; one with a variable of the head stays.
#[test]
fn wide_bodies() {
    let mut lines = wide(1, 8);
    let (and, b) = (lines.last_concept(), lines.class(19));
    let all = lines.all(2, b);
    lines.sub(and, all);
    let names = "A20(X) A21(X) A22(X) A23(X) A24(X) A25(X) A26(X) A27(X)";
    let clauses = lines.clauses();
    assert_eq!(clauses[0], format!("A10(X) {names} r1(X,9) -> A19(9)"));
    assert_eq!(clauses[1], "r0(X,1) A0(1) -> A20(X)");
    assert_eq!(lines.listing().stats, [9, 9, 0, 0, 0, 0, 1, 0]);
}

/// The names of the inner branches come before the outer one's, and equal branches share a name.
#[test]
fn wide_bodies_below_the_root() {
    let mut lines = wide(0, 8);
    let (and, b) = (lines.last_concept(), lines.class(19));
    let some = lines.some(2, and);
    lines.sub(some, b).sub(some, b);
    let clauses = lines.clauses();
    let names = "A20(1) A21(1) A22(1) A23(1) A24(1) A25(1) A26(1) A27(1)";
    assert_eq!(clauses[..2], ["A28(X) -> A19(X)"; 2]);
    assert_eq!(clauses[2], "r0(X,1) A0(1) -> A20(X)");
    assert_eq!(clauses[10], format!("r1(X,1) {names} -> A28(X)"));
    assert_eq!((clauses.len(), lines.listing().stats[6]), (11, 2));
}

/// Named count disjuncts without option 2.
#[test]
fn count_disjuncts() {
    let clauses = |options: u32| {
        let mut lines = Lines::new(3, 0, 1, options);
        let (a, b, c) = (lines.class(0), lines.class(1), lines.class(2));
        let most = lines.max(1, 0, c);
        let or = lines.or(&[b, most]);
        lines.sub(a, or);
        lines.clauses()
    };
    assert_eq!(clauses(2), ["A0(X) -> A1(X) max1.r0.A2(X)"]);
    assert_eq!(
        clauses(0),
        ["A3(X) -> max1.r0.A2(X)", "A0(X) -> A1(X) A3(X)"]
    );
}
