//! Option 8 in the instrumented copy beside the second reading of following.

mod common;

use common::Lines;
use deck::generate::{Shape, any, generate};
use deck::random::Random;
use deck::{Axiom, Deck};
use oracle::followed_maps::{cases, path, table};
use oracle::following::{self, Inverses, respelled};
use oracle::{Limits, Pass, Run, assert_agreed, run, run_with_stages};

/// The stored table of followed maps is the second reading's.
#[test]
fn the_stored_maps_are_the_second_readings() {
    let stored = std::fs::read_to_string(path()).expect("the table is there");
    let words = |text: &str| {
        let words = text.split_whitespace().map(str::to_owned);
        words.collect::<Vec<_>>()
    };
    assert_eq!(words(&stored), words(&table()));
}

/// A third reading: step by step, with the ids so far, until one comes again.
fn walked(map: &Inverses, mut code: u32) -> u32 {
    let step = |code: u32| {
        let entry = map.0.iter().find(|&&(key, _)| key == code / 2);
        entry.map(|&(_, value)| value ^ (code % 2))
    };
    let mut codes = vec![code];
    let ring = loop {
        let Some(next) = step(codes[codes.len() - 1]) else {
            return codes[codes.len() - 1];
        };
        if let Some(first) = codes.iter().position(|&seen| seen / 2 == next / 2) {
            break codes.split_off(first);
        }
        codes.push(next);
    };
    let least = ring.iter().map(|code| code / 2).min().expect("a ring");
    while code / 2 != least {
        code = step(code).expect("a ring has no end");
    }
    code
}

#[test]
fn maps_are_followed_as_step_by_step() {
    let mut met = [0; 5];
    for (name, map) in cases() {
        let codes = map.ends(9).into_iter().enumerate();
        for (code, end) in codes {
            let code = u32::try_from(code).unwrap();
            assert_eq!(end, walked(&map, code), "{name}, {code}");
        }
        let rings = map.rings();
        met[0] += usize::from(rings.is_empty());
        for ring in &rings {
            met[ring.len().min(4)] += 1;
        }
    }
    assert!(met[..4].iter().all(|&times| times >= 20), "{met:?}");
    assert!((120..=180).contains(&cases().len()), "{}", cases().len());
}

/// The request's own: r0 inverse to r1, then r2 inverse to r0.
#[test]
fn two_declarations_turn_back() {
    let clauses = |options: u32| {
        let mut lines = Lines::new(1, 0, 3, options);
        let class = lines.class(0);
        lines
            .axiom(Axiom::Inverse(0, 2))
            .axiom(Axiom::Inverse(4, 0));
        lines.axiom(Axiom::Domain(2, class));
        lines.axiom(Axiom::Domain(0, class));
        lines.clauses()
    };
    assert_eq!(
        clauses(0),
        ["r0-(X,1) -> A0(X)", "r2-(X,1) -> A0(X)"],
        "one step"
    );
    assert_eq!(clauses(8), ["r2(X,1) -> A0(X)", "r2-(X,1) -> A0(X)"]);
}

/// A skipped declaration leaves r2 as it is; a ring of declarations makes none of entries.
#[test]
fn skipped_declarations_stay_skipped() {
    let ends = |pairs: &[(u32, u32)]| {
        let mut deck = Lines::new(0, 0, 3, 8).0;
        let declared = pairs.iter().map(|&(r, s)| Axiom::Inverse(r, s));
        deck.axioms.extend(declared);
        let map = Inverses::declared(&deck);
        assert_eq!(map.rings(), Vec::<Vec<u32>>::new());
        map.ends(3)
    };
    assert_eq!(ends(&[(0, 2), (2, 4)]), [0, 1, 1, 0, 4, 5]);
    assert_eq!(ends(&[(0, 2), (2, 4), (4, 0)]), [5, 4, 4, 5, 4, 5]);
    assert_eq!(ends(&[(0, 2), (2, 0)]), [0, 1, 1, 0, 2 * 2, 5]);
    assert_eq!(ends(&[(1, 2), (2, 5), (4, 4)]), [0, 1, 2, 3, 4, 5]);
}

/// A deck of another shape with chains in it, or of the shape that has them.
fn drawn(rng: &mut Random) -> Deck {
    let mut deck = match rng.below(4) {
        0 => {
            let shapes = [Shape::Small, Shape::Inverse, Shape::AtMost];
            let shape = *rng.pick(&shapes);
            let deck = generate(rng, shape);
            deck::generate::chained(rng, &deck)
        }
        _ => generate(rng, Shape::Following),
    };
    deck.options |= 8;
    deck
}

/// How the two readings may be compared: not where two lines or two concepts of the pool become one, nor where disjoint roles
/// become equal, of which there is no clause then.
fn is_comparable(deck: &Deck, [with, without]: [&Run; 2]) -> bool {
    let ends = Inverses::declared(deck).ends(deck.roles);
    let joins = |list: &Vec<u32>| {
        list.iter().any(|&r| {
            list.iter()
                .any(|&s| r != s && ends[r as usize] == ends[s as usize])
        })
    };
    let has_joined = deck.axioms.iter().any(|axiom| match axiom {
        Axiom::DisjointRoles(list) => joins(list),
        _ => false,
    });
    let [Some((pool, _)), Some((other, _))] =
        [with, without].map(|run| run.stages.normalised.clone())
    else {
        return false;
    };
    let pool: Vec<_> = pool
        .iter()
        .map(|line| following::concept(line, &ends))
        .collect();
    !has_joined && pool == other && with.most.pool == without.most.pool
}

/// With option 8 the copy makes what it makes, and the unmodified build too, of the deck with its roles respelled.
fn is_as_respelled(deck: &Deck) -> bool {
    let other = respelled(deck);
    if deck::read(&deck::write(&other)).is_err() {
        return false;
    }
    let with = run_with_stages(deck, &Limits::LARGEST);
    let without = run_with_stages(&other, &Limits::LARGEST);
    if !is_comparable(deck, [&with, &without]) {
        return false;
    }
    assert_eq!(with.answer, without.answer, "{deck:?}");
    assert_eq!((with.most, &with.lengths), (without.most, &without.lengths));
    if let Ok(listing) = &without.answer {
        assert_agreed(&other, listing);
    }
    true
}

/// What the decks with option 8 met.
#[derive(Debug, Default)]
struct Seen {
    decks: usize,
    /// A role was followed in two steps, or three or more.
    two: usize,
    three: usize,
    /// The answers with the option and without it differ.
    differ: usize,
    respelled: usize,
    /// Of these, those in which a role was followed in two steps or more.
    respelled_two: usize,
    /// The second reading's ways say that no role takes two steps.
    single: usize,
}

impl Seen {
    fn note(&mut self, deck: &Deck) {
        let with = run(deck, &Limits::LARGEST);
        let mut other = deck.clone();
        other.options &= 7;
        let without = run(&other, &Limits::LARGEST);
        let is_same = (&with.answer, &with.most) == (&without.answer, &without.most);
        let ways = Inverses::declared(deck).ways(deck.roles);
        let longest = ways.iter().map(|way| way.1).max().unwrap_or(0);
        assert!(with.steps <= longest, "{deck:?}");
        assert!(without.steps <= 1);
        if longest < 2 {
            assert!(is_same, "{deck:?}");
        }
        let is_respelled = is_as_respelled(deck);
        self.decks += 1;
        self.two += usize::from(with.steps == 2);
        self.three += usize::from(with.steps > 2);
        self.differ += usize::from(!is_same);
        self.respelled += usize::from(is_respelled);
        self.respelled_two += usize::from(is_respelled && with.steps > 1);
        self.single += usize::from(longest < 2);
    }
}

fn seen(seed: u64, decks: usize) -> Seen {
    let mut rng = Random::new(seed);
    let mut seen = Seen::default();
    for _ in 0..decks {
        seen.note(&drawn(&mut rng));
    }
    seen
}

#[test]
fn followed_decks_are_as_respelled() {
    let decks = if cfg!(debug_assertions) {
        1_500
    } else {
        20_000
    };
    let seen = seen(8, decks);
    println!("{seen:?}");
    assert!(seen.two > decks / 5 && seen.three > decks / 10, "{seen:?}");
    assert!(seen.differ > decks / 4 && seen.single > decks / 50);
    assert!(seen.respelled_two > decks / 8, "{seen:?}");
}

/// `cargo test --release -- --ignored --nocapture` prints what they met.
#[test]
#[ignore = "takes long"]
fn more_followed_decks_are_as_respelled() {
    println!("{:?}", seen(8_000_000, 200_000));
}

/// Decks of any shape: without a way of two steps option 8 changes nothing, and none is longer than the ways say.
#[test]
fn without_a_way_of_two_steps_nothing_changes() {
    let mut rng = Random::new(81);
    let mut same = 0;
    for _ in 0..if cfg!(debug_assertions) { 200 } else { 5_000 } {
        let (_, mut deck) = any(&mut rng);
        deck.options |= 8;
        let ways = Inverses::declared(&deck).ways(deck.roles);
        if ways.iter().all(|&(_, steps)| steps < 2) {
            let with = run(&deck, &Limits::LARGEST);
            deck.options &= 7;
            let without = run(&deck, &Limits::LARGEST);
            assert_eq!((with.answer, with.most), (without.answer, without.most));
            assert!(with.lengths.contains_key(&Pass::Axioms) || with.lengths.is_empty());
            same += 1;
        }
    }
    assert!(same > 50);
}
