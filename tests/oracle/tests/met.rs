//! What is counted of a run, and generated decks that are made to meet it.

use std::fs;
use std::path::Path;

use deck::Deck;
use deck::generate::{Shape, counted_body_long, generate, names_at_limits, padded, unfolding};
use deck::random::Random;
use oracle::met::{DEFERRAL_KINDS, Met, SETTLED, ends, late_passes, settled};
use oracle::{Limits, Listing, Run, Settled, run};

/// The run of a decided deck, with option 1.
fn decided(name: &str) -> Run {
    let file = Path::new(env!("CARGO_MANIFEST_DIR")).join(format!("../decided/{name}.deck"));
    let mut deck = deck::read(&fs::read(file).unwrap()).unwrap();
    deck.options |= 1;
    run(&deck, &Limits::LARGEST)
}

#[test]
fn late_passes_of_decided_decks() {
    let told = |name| late_passes(&decided(name));
    assert_eq!(told("031_product_of_ors"), [""; 0]);
    assert_eq!(told("040_unfolding_in_order"), ["unfolding"]);
    assert_eq!(told("039_counted_loops_repeat"), ["counted loops"]);
    assert_eq!(told("043_wide_group_of_exactly_eight"), ["named branches"]);
    assert_eq!(
        told("010_nested_wide_bodies_with_a_memo_hit"),
        ["named branches", "a memo hit"]
    );
}

#[test]
fn unfolding_around_the_cap() {
    for seed in 0..2 {
        let told = |more| {
            let deck = unfolding(&mut Random::new(seed), more);
            late_passes(&run(&deck, &Limits::LARGEST))
        };
        let capped = |more| {
            let told = told(more);
            [
                told.contains(&"unfolding"),
                told.contains(&"unfolding that ends at the cap"),
                told.contains(&"unfolding past the cap"),
            ]
        };
        assert_eq!(capped(0), [true, false, false]);
        assert_eq!(capped(1), [true, true, false]);
        assert_eq!(capped(2), [true, false, true]);
    }
}

fn accepted(deck: &Deck) -> Listing {
    run(deck, &Limits::LARGEST).answer.unwrap()
}

#[test]
fn assertions_take_visits_and_leave_the_clauses() {
    for seed in 0..200 {
        let mut rng = Random::new(seed);
        let deck = generate(&mut rng, Shape::Small);
        let [lines, longer] = [0, 777].map(|visits| accepted(&padded(&mut rng, &deck, visits)));
        assert_eq!(longer.visits, lines.visits + 777);
        assert_eq!(longer.clauses, lines.clauses);
    }
}

#[test]
fn a_deck_is_padded_up_to_the_last_visit() {
    for seed in 0..4 {
        let mut rng = Random::new(seed);
        let deck = generate(&mut rng, Shape::Small);
        let rest = 1_000_000 - accepted(&padded(&mut rng, &deck, 0)).visits;
        assert_eq!(accepted(&padded(&mut rng, &deck, rest)).visits, 1_000_000);
        let over = run(&padded(&mut rng, &deck, rest + 1), &Limits::LARGEST);
        assert!(over.answer.is_err_and(|refusal| refusal.number == 10));
    }
}

#[test]
fn counted_loops_reach_the_longest_body() {
    let mut seen = [0; 2];
    for seed in 0..20 {
        let deck = counted_body_long(&mut Random::new(seed));
        let run = run(&deck, &Limits::LARGEST);
        let told = ends(&run, &run, Limits::LARGEST.rooms());
        assert_eq!(run.answer.is_err(), !told.is_empty());
        seen[usize::from(run.answer.is_err())] += 1;
    }
    assert!(seen.iter().all(|&count| count > 2), "{seen:?}");
}

/// Decks of at-most restrictions meet all that option 4 leads to, in tables that are short of a record at times.
#[test]
fn limits_are_settled() {
    let mut rng = Random::new(12);
    let mut met = Met::default();
    for round in 0..1_500 {
        let deck = if round % 50 == 0 {
            names_at_limits(&mut rng)
        } else {
            generate(&mut rng, Shape::AtMost)
        };
        let generous = run(&deck, &Limits::LARGEST);
        let mut rooms = generous.most.rooms();
        let place = rng.index(3);
        rooms[place] = rooms[place].saturating_sub(rng.index(2));
        let mut limits = Limits::tables(rooms);
        if rng.chance(1, 4) {
            limits.visits = generous.most.visits - 1;
        }
        for what in settled(&generous, &run(&deck, &limits), rooms) {
            met.note(what);
        }
    }
    met.print();
    let missing: Vec<&str> = SETTLED
        .into_iter()
        .filter(|what| met.times(what) < 3)
        .collect();
    assert!(missing.is_empty(), "{missing:?}");
}

/// The pool ends on each side of 2,048 concepts while limits are settled, at times with more of them than it may hold.
#[test]
fn names_fill_the_pool() {
    let mut seen = [0; 4];
    for seed in 0..120 {
        let run = run(&names_at_limits(&mut Random::new(seed)), &Limits::LARGEST);
        let at = match run.answer {
            Ok(_) if run.most.pool == 2_048 => 0,
            Ok(_) => continue,
            Err(refusal) => {
                assert_eq!(
                    (refusal.number, run.settled.under_way),
                    (11, true),
                    "{seed}"
                );
                match run.settled {
                    Settled {
                        limits: 2_049.., ..
                    } => 3,
                    Settled { at_a_name, .. } => 1 + usize::from(at_a_name),
                }
            }
        };
        seen[at] += 1;
    }
    assert!(seen.iter().all(|&count| count > 5), "{seen:?}");
}

/// No deck has a deferral of another kind.
#[test]
fn deferral_kinds() {
    let mut rng = Random::new(8);
    for shape in Shape::ALL {
        for _ in 0..100 {
            let deck = generate(&mut rng, shape);
            if let Ok(listing) = run(&deck, &Limits::LARGEST).answer {
                let mut kinds = listing.deferrals.iter().map(|deferral| deferral.1);
                assert!(kinds.all(|kind| DEFERRAL_KINDS.contains(&kind)));
            }
        }
    }
}
