//! The two builds on many decks, and what the instrumented copy counts and keeps.

use deck::generate::{Shape, any, generate};
use deck::random::Random;
use deck::{Axiom, Concept, Deck};
use oracle::{Answer, Limits, Pass, answer, answer_deck, run, run_with_stages};

/// [`answer_deck`] panics where the two builds differ.
#[test]
fn the_builds_agree_on_any_deck() {
    let mut rng = Random::new(2);
    let decks = 4_000;
    let accepted = (0..decks).filter(|_| is_accepted(&any(&mut rng).1)).count();
    assert!(accepted > decks / 2, "{accepted}");
}

#[test]
fn the_builds_agree_on_each_shape() {
    let mut rng = Random::new(3);
    for shape in Shape::ALL {
        for _ in 0..50 {
            let _ = is_accepted(&generate(&mut rng, shape));
        }
    }
}

fn is_accepted(deck: &Deck) -> bool {
    let answer = answer_deck(deck, &Limits::LARGEST);
    assert!(
        !matches!(answer, Answer::CannotHold)
            || deck
                .concepts
                .iter()
                .any(|c| matches!(c, Concept::Min(0, _, _)))
    );
    matches!(answer, Answer::Accepted(_))
}

/// Generated decks come through their bytes unchanged.
#[test]
fn bytes_and_deck_have_one_answer() {
    let mut rng = Random::new(4);
    for _ in 0..200 {
        let (_, deck) = any(&mut rng);
        assert_eq!(
            answer(&deck::write(&deck), &Limits::LISTER),
            answer_deck(&deck, &Limits::LISTER)
        );
    }
}

/// Visits of the normal form, straight from the rules: one for each concept met, and none below a negated Min 0.
fn normal_form_visits(deck: &Deck, concept: u32, negated: bool) -> usize {
    let of = |part: u32, negated: bool| normal_form_visits(deck, part, negated);
    1 + match deck.concepts[concept as usize] {
        Concept::Not(part) => of(part, !negated),
        Concept::And(ref list) | Concept::Or(ref list) => {
            list.iter().map(|&part| of(part, negated)).sum()
        }
        Concept::Some(_, part) | Concept::All(_, part) => of(part, negated),
        Concept::Min(0, _, _) if negated => 0,
        Concept::Min(_, _, part) | Concept::Max(_, _, part) => of(part, false),
        _ => 0,
    }
}

#[test]
fn assertions_visit_their_normal_forms_alone() {
    let mut rng = Random::new(5);
    let small = [
        Shape::Small,
        Shape::MinZero,
        Shape::Keys,
        Shape::Disjunctive,
    ];
    for round in 0..1_000 {
        let mut deck = generate(&mut rng, small[round % small.len()]);
        deck.axioms
            .retain(|axiom| matches!(axiom, Axiom::ClassAssertion(..)));
        let asserted = |axiom: &Axiom| match *axiom {
            Axiom::ClassAssertion(concept, _) => normal_form_visits(&deck, concept, false),
            _ => 0,
        };
        let visits: usize = deck.axioms.iter().map(asserted).sum();
        let listing = run(&deck, &Limits::LARGEST).answer.unwrap();
        assert_eq!(
            (
                listing.visits as usize,
                listing.fresh,
                listing.clauses.len()
            ),
            (visits, 0, 0)
        );
    }
}

/// Fresh ids are the class ids beyond the declared and the individuals', each taken once.
#[test]
fn fresh_ids_follow_the_individuals() {
    let mut rng = Random::new(6);
    for _ in 0..1_000 {
        let (_, deck) = any(&mut rng);
        let Ok(listing) = run(&deck, &Limits::LARGEST).answer else {
            continue;
        };
        let atoms = listing
            .clauses
            .iter()
            .flat_map(|clause| clause.body.iter().chain(&clause.head));
        let highest = atoms.map(|atom| atom[2]).max().unwrap_or(0);
        assert!(highest <= deck.classes + deck.individuals + listing.fresh);
        assert_eq!(listing.deferrals.len(), listing.stats[5] as usize);
        assert_eq!(listing.clauses.len(), listing.stats[0] as usize);
    }
}

#[test]
fn stages_lead_to_the_answer() {
    let mut rng = Random::new(7);
    for _ in 0..1_000 {
        let (_, deck) = any(&mut rng);
        let run = run_with_stages(&deck, &Limits::LARGEST);
        let Some((pool, axioms)) = &run.stages.normalised else {
            assert!(run.answer.is_err_and(|refusal| refusal.number < 12));
            continue;
        };
        assert!(pool.starts_with(&deck.concepts));
        assert_eq!(axioms.len(), deck.axioms.len());
        let Ok(listing) = &run.answer else { continue };
        let [axioms, reflexive, loops, last] =
            [Pass::Axioms, Pass::Reflexive, Pass::Loops, Pass::Last]
                .map(|pass| &run.stages.passes[&pass].clauses);
        assert!(reflexive.starts_with(axioms) && loops.starts_with(reflexive));
        assert!(deck.options & 1 != 0 || last == loops);
        assert_eq!(last, &listing.clauses);
    }
}
