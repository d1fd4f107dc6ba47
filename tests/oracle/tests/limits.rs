//! Each limit at its end: by document 01's own numbers, and exactly at what generated decks use.

mod common;

use common::Lines;
use deck::generate::any;
use deck::random::Random;
use deck::{Axiom, Concept, Deck, Refusal};
use oracle::{Answer, Limits, run};

fn refusal(number: u32, line: u32) -> Refusal {
    Refusal { number, line }
}

/// Exactly what a run uses is enough, and one less of anything is refused.
fn assert_exact(deck: &Deck) -> bool {
    let generous = run(deck, &Limits::LARGEST);
    let Ok(listing) = &generous.answer else {
        return false;
    };
    let most = generous.most;
    assert_eq!(run(deck, &most), generous, "{deck:?}");
    assert_eq!(listing.visits as usize, most.visits);
    for name in Limits::NAMES {
        let mut limits = most;
        let limit = limits.named(name).unwrap();
        if *limit == 0 {
            continue;
        }
        *limit -= 1;
        let number = match name {
            "visits" => 10,
            "pool" | "members" => 11,
            _ => 12,
        };
        let refusal = run(deck, &limits).answer.expect_err(name);
        assert_eq!(refusal.number, number, "{name} of {deck:?}");
        assert!(
            is_line_of_an_axiom_or_none(deck, refusal.line),
            "{refusal:?} to {deck:?}"
        );
    }
    true
}

fn is_line_of_an_axiom_or_none(deck: &Deck, line: u32) -> bool {
    line == 0 || (deck.axiom_line(0)..deck.axiom_line(deck.axioms.len())).contains(&line)
}

#[test]
fn exact_uses_of_generated_decks() {
    let mut rng = Random::new(1);
    let accepted = (0..1_000)
        .filter(|_| assert_exact(&any(&mut rng).1))
        .count();
    assert!(accepted > 500, "{accepted}");
}

/// Alls of both of two roles over the level below, and Top below them: a level's normal form, and its emission as a head
/// that leaves no clause, take 2^(level + 2) - 3 visits each.
fn doubling(lines: &mut Lines, levels: usize) -> Vec<u32> {
    let mut level = vec![lines.top()];
    for at in 0..levels {
        let alls = [lines.all(0, level[at]), lines.all(2, level[at])];
        level.push(lines.and(&alls));
    }
    level
}

#[test]
fn visits_to_a_million() {
    let mut lines = Lines::new(0, 1, 2, 3);
    let levels = doubling(&mut lines, 17);
    let mut left = 1_000_000;
    for (level, &concept) in levels.iter().enumerate().rev() {
        let visits = (1 << (level + 2)) - 3;
        while visits <= left {
            left -= visits;
            lines.axiom(Axiom::ClassAssertion(concept, 0));
        }
    }
    assert_eq!(lines.listing().visits, 1_000_000);
    lines.axiom(Axiom::Transitive(0));
    assert_eq!(lines.listing().visits, 1_000_000);
    lines.axiom(Axiom::ClassAssertion(0, 0));
    assert_eq!(
        lines.refusal(&Limits::LARGEST),
        refusal(10, lines.last_line())
    );
}

#[test]
fn too_many_visits() {
    // In the normal form of the second axiom, before the first is clausified.
    let mut lines = Lines::new(1, 0, 2, 3);
    let levels = doubling(&mut lines, 18);
    let a = lines.class(0);
    lines.sub(a, a).sub(a, levels[18]).sub(a, a);
    assert_eq!(
        lines.refusal(&Limits::LARGEST),
        refusal(10, lines.0.axiom_line(1))
    );
    // In the head of the third: four times a quarter of 2^20.
    let mut lines = Lines::new(1, 0, 2, 3);
    let levels = doubling(&mut lines, 16);
    let a = lines.class(0);
    lines.sub(a, levels[16]).sub(a, a).sub(a, levels[16]);
    assert_eq!(
        lines.refusal(&Limits::LARGEST),
        refusal(10, lines.0.axiom_line(2))
    );
}

/// A chain of Somes over Not (A0 and A1), and its negation: each new at every level in its normal form.
fn pool_of(size: usize) -> Lines {
    let mut lines = Lines::new(2, 4_096, 1_024, 3);
    let list = lines.classes(0..2);
    let and = lines.and(&list);
    let bottom = lines.not(and);
    let mut used = 4 + 3;
    for chain in 0..10 {
        let mut concept = bottom;
        for level in 0..60 {
            concept = lines.some(2 * (60 * chain + level), concept);
        }
        let not = lines.not(concept);
        lines.sub(concept, not);
        used += 60 + 1 + 60 + 60;
    }
    for individual in 0..u32::try_from(size - used).unwrap() {
        lines.concept(Concept::Nominal(individual));
    }
    lines
}

#[test]
fn pool_of_2048() {
    let full = pool_of(2_048);
    assert_eq!(run(&full.0, &Limits::LARGEST).most.pool, 2_048);
    full.listing();
    let over = pool_of(2_049);
    assert_eq!(
        over.refusal(&Limits::LARGEST),
        refusal(11, over.last_line())
    );
}

/// 122 records of 129 members, made by flattening an And of a class and of 128 negated ones; lines of 2 for the rest.
fn members_of(count: usize) -> Lines {
    let mut lines = Lines::new(250, 0, 1, 3);
    let list = lines.classes(0..128);
    let or = lines.or(&list);
    let not = lines.not(or);
    let mut used = 128 + 128;
    for id in 128..250 {
        let class = lines.class(id);
        let and = lines.and(&[class, not]);
        lines.sub(class, and);
        used += 2 + 129;
    }
    for pair in 0..(count - used) / 2 {
        lines.and(&[list[pair], list[pair + 1]]);
    }
    lines
}

#[test]
fn members_of_16384() {
    let full = members_of(16_384);
    assert_eq!(run(&full.0, &Limits::LARGEST).most.members, 16_384);
    full.listing();
    let over = members_of(16_386);
    assert_eq!(
        over.refusal(&Limits::LARGEST),
        refusal(11, over.last_line())
    );
}

/// An And or Or of so many classes in normal form: 200 of them stand under two negated lists of negations.
fn flattened(lines: &mut Lines, atoms: u32, and: bool) -> u32 {
    let mut list = lines.classes(0..atoms - 200);
    for part in [0..100, 100..200] {
        let classes = lines.classes(300 + part.start..300 + part.end);
        let nots = lines.nots(&classes);
        let dual = if and {
            lines.or(&nots)
        } else {
            lines.and(&nots)
        };
        list.push(lines.not(dual));
    }
    if and {
        lines.and(&list)
    } else {
        lines.or(&list)
    }
}

#[test]
fn atoms_in_hand() {
    for and in [true, false] {
        let deck = |atoms: u32| {
            let mut lines = Lines::new(600, 0, 1, 2);
            let (list, class) = (flattened(&mut lines, atoms, and), lines.class(599));
            if and {
                lines.sub(list, class)
            } else {
                lines.sub(class, list)
            };
            lines
        };
        let listing = deck(256).listing();
        assert_eq!(
            listing.clauses[0]
                .body
                .len()
                .max(listing.clauses[0].head.len()),
            256
        );
        assert_eq!(
            deck(257).refusal(&Limits::LARGEST),
            refusal(12, deck(257).last_line())
        );
    }
}

/// Over classes A0 to A2 and one role, an axiom that has so many atoms in hand, and so many at one place alone.
fn in_hand(most: usize, make: fn(&mut Lines) -> Axiom) {
    let mut lines = Lines::new(3, 0, 1, 3);
    lines.classes(0..3);
    let axiom = make(&mut lines);
    lines.axiom(axiom);
    assert_eq!(run(&lines.0, &Limits::LISTER).most.in_hand, most);
    let fewer = Limits {
        in_hand: most - 1,
        ..Limits::LISTER
    };
    assert_eq!(lines.refusal(&fewer), refusal(12, lines.last_line()));
}

#[test]
fn places_of_atoms_in_hand() {
    // And and Some of an antecedent.
    in_hand(2, |lines| Axiom::SubClassOf(lines.and(&[0, 1]), 2));
    in_hand(2, |lines| Axiom::SubClassOf(lines.some(0, 0), 2));
    // Pairs of disjoint classes and of a union's members, and its covering.
    in_hand(2, |_| Axiom::DisjointClasses(vec![0, 1]));
    in_hand(3, |lines| {
        Axiom::DisjointUnion(2, vec![lines.and(&[0, 1]), 2])
    });
    in_hand(3, |_| Axiom::DisjointUnion(0, vec![0, 1, 2]));
    // All, Not of a class and of Self, and Or of a head.
    in_hand(2, |lines| Axiom::SubClassOf(0, lines.all(0, 1)));
    in_hand(2, |lines| Axiom::SubClassOf(0, lines.not(0)));
    in_hand(2, |lines| {
        let own = lines.concept(Concept::SelfRestriction(0));
        Axiom::SubClassOf(0, lines.not(own))
    });
    in_hand(2, |lines| Axiom::SubClassOf(2, lines.or(&[0, 1])));
}

/// 45 classes disjoint in pairs and 33 inclusions: 1,023 clauses of 2 atoms. Then these inclusions.
fn filled(more: &[(Concept, Concept)]) -> Lines {
    let mut lines = Lines::new(45, 0, 0, 3);
    let list = lines.classes(0..45);
    let (a, b) = (list[0], list[1]);
    lines.axiom(Axiom::DisjointClasses(list));
    lines.0.axioms.extend(vec![Axiom::SubClassOf(a, b); 33]);
    for (sub, sup) in more {
        let (sub, sup) = (lines.concept(sub.clone()), lines.concept(sup.clone()));
        lines.sub(sub, sup);
    }
    lines
}

#[test]
fn clauses_and_atoms_of_the_lister() {
    let full = filled(&[(Concept::Atomic(0), Concept::Atomic(1))]);
    let listing = full.listing();
    assert_eq!(
        (listing.clauses.len(), listing.atom_table().len()),
        (1_024, 6 * 2_048)
    );
    assert_eq!(full.answer(&Limits::LISTER), Answer::Accepted(listing));
    let nothing = (Concept::Top, Concept::Bot);
    let atoms = filled(&[(Concept::And(vec![0, 1]), Concept::Atomic(2))]);
    let clauses = filled(&[nothing.clone(), nothing]);
    for over in [atoms, clauses] {
        assert_eq!(over.refusal(&Limits::LISTER), refusal(12, over.last_line()));
    }
}

#[test]
fn deferrals_of_the_lister() {
    let mut lines = Lines::new(0, 0, 1, 3);
    lines.0.axioms = vec![Axiom::Chain(0, vec![]); 256];
    assert_eq!(
        lines.answer(&Limits::LISTER),
        Answer::Accepted(lines.listing())
    );
    lines.axiom(Axiom::Chain(0, vec![]));
    assert_eq!(
        lines.refusal(&Limits::LISTER),
        refusal(12, lines.last_line())
    );
}

/// All axioms are normalised before the first clause is made.
#[test]
fn late_normal_forms_come_before_early_clauses() {
    let mut lines = Lines::new(2, 0, 1, 3);
    let (a, b) = (lines.class(0), lines.class(1));
    let and = lines.and(&[a, b]);
    let not = lines.not(and);
    lines.sub(a, b).sub(a, not);
    let none = Limits {
        clauses: 0,
        ..Limits::LISTER
    };
    assert_eq!(lines.refusal(&none), refusal(12, lines.0.axiom_line(0)));
    let small = Limits { pool: 4, ..none };
    assert_eq!(lines.refusal(&small), refusal(11, lines.0.axiom_line(1)));
    let few = Limits { visits: 3, ..small };
    assert_eq!(lines.refusal(&few), refusal(10, lines.0.axiom_line(1)));
}

/// Of the lists of decomposition only the finished one is tested, at line 0.
#[test]
fn decomposition_is_tested_once() {
    let mut lines = Lines::new(10, 0, 1, 1);
    let fillers = lines.classes(0..8);
    let somes: Vec<u32> = fillers
        .iter()
        .map(|&filler| lines.some(0, filler))
        .collect();
    let (and, b) = (lines.and(&somes), lines.class(9));
    lines.sub(and, b).sub(and, b);
    let most = run(&lines.0, &Limits::LARGEST).most;
    // Two clauses of 17 atoms become two of 9 and eight of 3.
    assert_eq!((most.clauses, most.atoms), (10, 42));
    let tables = |clauses: usize, atoms: usize| lines.refusal(&Limits::tables([clauses, atoms, 0]));
    assert_eq!(tables(9, 42), refusal(12, 0));
    assert_eq!(tables(10, 41), refusal(12, 0));
    assert_eq!(tables(10, 33), refusal(12, lines.last_line()));
}

/// Derived clauses, counted loops and the deferral at the cap belong to no axiom.
#[test]
fn reflexive_passes_have_line_0() {
    let mut lines = Lines::new(2, 0, 1, 2);
    let (a, b) = (lines.class(0), lines.class(1));
    let (some, most) = (lines.some(0, a), lines.max(1, 0, b));
    lines.sub(some, most).axiom(Axiom::Reflexive(0));
    assert_eq!(
        lines.clauses(),
        [
            "r0(X,1) A0(1) -> max1.r0.A1(X)",
            "A0(X) -> max1.r0.A1(X)",
            "r0(X,1) A0(1) r0(X,2) -> r0(X,X)",
            "A0(X) r0(X,1) -> r0(X,X)"
        ]
    );
    for clauses in 1..4 {
        assert_eq!(
            lines.refusal(&Limits::tables([clauses, 99, 9])),
            refusal(12, 0)
        );
    }
    assert_eq!(
        lines.refusal(&Limits {
            in_hand: 2,
            ..Limits::LISTER
        }),
        refusal(12, 0)
    );
}
