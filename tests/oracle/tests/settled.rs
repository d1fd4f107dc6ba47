//! Option 4: once an axiom is clausified, each at-most filler that a fresh class names is put below its name.

mod common;

use common::Lines;
use deck::generate::{Shape, any, generate};
use deck::random::Random;
use deck::{Axiom, Concept, Deck, Refusal};
use oracle::{Answer, Limits, Pass, Settled, answer_deck, run, run_with_stages};

/// Classes A0 and on, two roles.
fn lines(classes: u32, options: u32) -> Lines {
    let mut lines = Lines::new(classes, 0, 2, options);
    lines.classes(0..classes);
    lines
}

#[test]
fn names_get_their_other_half() {
    let clauses = |options| {
        let mut lines = lines(3, options);
        let both = lines.and(&[1, 2]);
        let most = lines.max(2, 0, both);
        lines.sub(0, most);
        lines.clauses()
    };
    let own = ["A3(X) -> A1(X)", "A3(X) -> A2(X)", "A0(X) -> max2.r0.A3(X)"];
    for options in [0, 3] {
        assert_eq!(clauses(options), own);
        let halves = [&own[..], &["A1(X) A2(X) -> A3(X)"]].concat();
        assert_eq!(clauses(options + 4), halves);
    }
}

/// Top, classes and individuals, and fillers of Some and Min, have no other half.
#[test]
fn nothing_else_waits() {
    let mut lines = Lines::new(3, 1, 1, 6);
    lines.classes(0..3);
    let (both, top) = (lines.and(&[1, 2]), lines.top());
    let nominal = lines.concept(Concept::Nominal(0));
    let not = lines.not(1);
    let mut heads: Vec<u32> = [1, top, nominal]
        .iter()
        .map(|&filler| lines.max(1, 0, filler))
        .collect();
    heads.extend([lines.some(0, both), lines.min(2, 0, both), not]);
    let or = lines.or(&heads[..]);
    let all = lines.and(&heads);
    lines.sub(0, or).sub(0, all);
    let run = run(&lines.0, &Limits::LARGEST);
    assert_eq!(run.settled, Settled::default());
    let mut without = lines.clone();
    without.0.options -= 4;
    assert_eq!(without.listing(), lines.listing());
}

/// The outer filler before one inside it, and both before what the first half of another makes.
#[test]
fn the_queue_is_in_order_of_naming() {
    let mut lines = lines(4, 4);
    let both = lines.and(&[1, 2]);
    let inner = lines.max(1, 2, both);
    let outer = lines.max(0, 0, inner);
    lines.sub(0, outer);
    assert_eq!(
        lines.clauses(),
        [
            "A5(X) -> A1(X)",
            "A5(X) -> A2(X)",
            "A4(X) -> max1.r1.A5(X)",
            "A0(X) -> max0.r0.A4(X)",
            // Max 1 r1 (A1 and A2) below A4: hard, and its complement is a Min 2 over the And.
            "A7(X) -> A1(X)",
            "A7(X) -> A2(X)",
            "A6(X) -> min2.r1.A7(X)",
            "-> A4(X) A6(X)",
            "A1(X) A2(X) -> A5(X)"
        ]
    );
}

/// A limit that is named while others are settled goes to the queue's end.
#[test]
fn limits_named_on_the_way_come_last() {
    let mut lines = lines(5, 6);
    let [both, other] = [lines.and(&[1, 2]), lines.and(&[3, 4])];
    // The complement of the first filler is an at-most.
    let least = lines.min(2, 2, both);
    let mosts = [lines.max(1, 0, least), lines.max(1, 0, other)];
    let heads = lines.and(&mosts);
    lines.sub(0, heads);
    let run = run(&lines.0, &Limits::LARGEST);
    assert_eq!((run.settled.limits, run.settled.on_the_way), (3, 1));
    let clauses = lines.clauses();
    assert_eq!(
        clauses[clauses.len() - 2..],
        ["A3(X) A4(X) -> A7(X)", "A1(X) A2(X) -> A8(X)"]
    );
}

/// Every inclusion of an equivalence comes before the first other half, and each use has a name of its own.
#[test]
fn the_whole_axiom_comes_first() {
    let mut lines = lines(3, 4);
    let both = lines.and(&[1, 2]);
    let most = lines.max(1, 0, both);
    lines.axiom(Axiom::EquivalentClasses(vec![0, most, 1]));
    let clauses = lines.clauses();
    let halves = |name: u32| format!("A1(X) A2(X) -> A{name}(X)");
    let place = |name| clauses.iter().position(|clause| *clause == halves(name));
    let [first, second] = ["A0(X) -> max", "A1(X) -> max"].map(|start| {
        let named = |clause: &&String| clause.starts_with(start);
        let clause = clauses.iter().find(named).unwrap();
        clause[clause.rfind('A').unwrap() + 1..clause.len() - 3]
            .parse()
            .unwrap()
    });
    assert_eq!(place(first), Some(clauses.len() - 2));
    assert_eq!(place(second), Some(clauses.len() - 1));
}

/// Settled after its own axiom, at its line: a deferral, and a refusal of each number.
#[test]
fn at_the_axioms_line() {
    let mut lines = lines(19, 4);
    let ors = [1..10, 10..19].map(|ids: std::ops::Range<u32>| {
        let members: Vec<u32> = ids.collect();
        lines.or(&members)
    });
    let wide = lines.and(&ors);
    let most = lines.max(1, 0, wide);
    lines.sub(0, 1).sub(0, most).sub(0, 1);
    let line = lines.0.axiom_line(1);
    let generous = run(&lines.0, &Limits::LARGEST);
    let listing = lines.listing();
    assert_eq!(listing.deferrals, [(line, 5)]);
    assert_eq!(generous.settled.deferrals, 1);
    assert_eq!(listing.clauses.len(), 5);
    // The third inclusion takes the last two visits.
    let squeezed = |name: &str, less: usize| {
        let mut limits = generous.most;
        *limits.named(name).unwrap() -= less;
        let run = run(&lines.0, &limits);
        (run.answer.unwrap_err(), run.settled)
    };
    for (name, less, number) in [("visits", 3, 10), ("pool", 1, 11), ("deferrals", 1, 12)] {
        let (refusal, settled) = squeezed(name, less);
        assert_eq!(refusal, Refusal { number, line }, "{name}");
        assert!(settled.under_way && settled.at_a_name, "{name}");
    }
}

fn without(deck: &Deck) -> Deck {
    Deck {
        options: deck.options & !4,
        ..deck.clone()
    }
}

/// With the option an axiom's clauses come first, and are those without it; where nothing waits that is all.
#[test]
fn an_axioms_own_clauses_stay() {
    let mut rng = Random::new(9);
    let mut waited = 0;
    for round in 0..3_000 {
        let (_, mut deck) = any(&mut rng);
        deck.options |= 4;
        if round % 2 == 0 {
            deck.axioms.truncate(1);
        }
        let [with, before] =
            [&deck, &without(&deck)].map(|deck| run_with_stages(deck, &Limits::LARGEST));
        if with.settled.limits == 0 {
            assert_eq!((with.answer, with.most), (before.answer, before.most));
            continue;
        }
        waited += 1;
        let [Some(with), Some(before)] =
            [&with, &before].map(|run| run.stages.passes.get(&Pass::Axioms))
        else {
            continue;
        };
        if deck.axioms.len() == 1 {
            assert!(with.clauses.starts_with(&before.clauses));
            assert!(with.deferrals.starts_with(&before.deferrals));
        }
        assert!(with.clauses.len() >= before.clauses.len());
    }
    assert!(waited > 200, "{waited}");
}

/// The queue's first inclusion is the original's own: what the unmodified build makes where the name is a declared class.
#[test]
fn the_other_half_is_the_originals_inclusion() {
    let mut rng = Random::new(10);
    let mut compared = 0;
    while compared < 500 {
        let shape = *rng.pick(&[Shape::Small, Shape::Keys, Shape::Inverse]);
        let deck = generate(&mut rng, shape);
        if deck.roles > 0 && !deck.concepts.is_empty() {
            compared += usize::from(is_the_originals(deck));
        }
    }
}

/// Class A below a Max over the deck's last concept, and nothing else; false where no limit waits, or more than one.
fn is_the_originals(deck: Deck) -> bool {
    let mut lines = Lines(Deck {
        classes: deck.classes + 1,
        individuals: 0,
        options: 6,
        axioms: Vec::new(),
        ..deck
    });
    let filler = lines.last_concept();
    let class = lines.class(lines.0.classes - 1);
    let most = lines.max(7, 0, filler);
    lines.sub(class, most);
    let is_nominal = |concept: &Concept| matches!(concept, Concept::Nominal(_));
    let with = run_with_stages(&lines.0, &Limits::LARGEST);
    if with.settled.limits != 1 || lines.0.concepts.iter().any(is_nominal) {
        return false;
    }
    let (mut pool, axioms) = with.stages.normalised.unwrap();
    let [Axiom::SubClassOf(_, most)] = axioms[..] else {
        panic!("one inclusion");
    };
    let filler = pool[most as usize].parts()[0];
    let before = run(&without(&lines.0), &Limits::LARGEST).answer.unwrap();
    let with = with.answer.unwrap();
    // The name is the first fresh class.
    let name = u32::try_from(pool.len()).unwrap();
    pool.push(Concept::Atomic(lines.0.classes));
    let half = Lines(Deck {
        classes: lines.0.classes + before.fresh,
        concepts: pool,
        axioms: vec![Axiom::SubClassOf(filler, name)],
        ..without(&lines.0)
    });
    let Answer::Accepted(half) = answer_deck(&half.0, &Limits::LARGEST) else {
        panic!("an inclusion");
    };
    assert_eq!(with.clauses[..before.clauses.len()], before.clauses);
    assert_eq!(with.clauses[before.clauses.len()..], half.clauses);
    assert_eq!(with.fresh, before.fresh + half.fresh);
    assert_eq!(with.stats[5], before.stats[5] + half.stats[5]);
    true
}
