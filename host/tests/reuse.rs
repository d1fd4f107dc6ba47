//! One clausifier for many decks.

mod common;

use common::{deck, equivalent, refused, texts, worked};
use gorvask::{Clausifier, Deferral, Statistics};

type Answer = Result<(Vec<String>, Vec<Deferral>, Statistics, u32, u32), (u32, Option<u32>)>;

fn answer(clausifier: &mut Clausifier, deck: &[u8]) -> Answer {
    match clausifier.clausify(deck) {
        Ok(clauses) => Ok((
            texts(clauses),
            clauses.deferrals().collect(),
            clauses.statistics(),
            clauses.fresh_ids(),
            clauses.visits(),
        )),
        Err(refusal) => Err((refusal.number(), refusal.line())),
    }
}

fn decks() -> Vec<Vec<u8>> {
    let mut decks = vec![
        equivalent(60, 1),
        worked(),
        deck(&[vec![0, 0, 0, 1, 0], vec![27, 0, 0, 0, 0]]),
        deck(&[vec![0, 0, 0, 0, 0]]),
        equivalent(3, 2),
    ];
    decks.extend(refused().into_iter().map(|(_, _, deck)| deck));
    decks
}

#[test]
fn a_used_clausifier_answers_like_a_new_one() {
    let decks = decks();
    let alone: Vec<Answer> = decks
        .iter()
        .map(|deck| answer(&mut Clausifier::new(), deck))
        .collect();
    let mut used = Clausifier::new();
    let forward = (0..decks.len()).chain((0..decks.len()).rev());
    for place in forward {
        assert_eq!(
            answer(&mut used, &decks[place]),
            alone[place],
            "deck {place}"
        );
        assert_eq!(answer(&mut used, &worked()), alone[1], "after deck {place}");
    }
}

#[test]
fn a_copy_goes_its_own_way() {
    let mut first = Clausifier::new();
    first.clausify(&equivalent(60, 1)).expect("accepted");
    let mut second = first.clone();
    let a = answer(&mut first, &worked());
    let b = answer(&mut second, &worked());
    assert_eq!(a, b);
}

#[test]
fn the_answer_outlives_the_deck() {
    let mut clausifier = Clausifier::new();
    let clauses = {
        let deck = worked();
        clausifier.clausify(&deck).expect("accepted")
    };
    assert_eq!(texts(clauses), ["A0(x) → ∃r0.A1(x)"]);
}
