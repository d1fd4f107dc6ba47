//! The decks that are measured.

use deck::Deck;
use deck::generate::{Shape, generate};
use deck::random::Random;
use oracle::{Limits, Listing};

use crate::extreme::{
    full_of_clauses, full_of_concepts, full_of_members, inverse_chain, reflexive,
    visits_in_antecedents, visits_in_heads, visits_in_normal_forms, wide, wide_trees,
};
use crate::ours;
use crate::realistic::realistic;

/// Decks of one kind.
pub struct Kind {
    pub name: &'static str,
    pub decks: Vec<Vec<u8>>,
}

/// What the original says of a deck.
pub struct Known {
    pub deck: Deck,
    pub listing: Listing,
}

impl Known {
    /// # Panics
    /// If the deck is refused.
    pub fn of(bytes: &[u8]) -> Self {
        let deck = deck::read(bytes)
            .unwrap_or_else(|refusal| panic!("a deck of the bench is refused: {refusal:?}"));
        let listing = oracle::run(&deck, &Limits::LARGEST)
            .answer
            .unwrap_or_else(|refusal| panic!("a deck of the bench is refused: {refusal:?}"));
        Self { deck, listing }
    }
}

/// The kind whose decks are also shown one by one.
pub const REALISTIC: &str = "realistic, 900 axioms";
/// Axioms of a realistic deck.
pub const AXIOMS: u32 = 900;
/// Seeds of the realistic decks: those of 1 to 200 whose decks have sizes nearest to twelve that rise evenly from the
/// least of the 200 to the greatest.
pub const SEEDS: [u64; 12] = [134, 178, 61, 35, 146, 148, 103, 102, 83, 48, 120, 196];
/// Axioms of the decks that show how time grows.
pub const SERIES: [u32; 8] = [16, 32, 64, 128, 256, 512, 900, 1_024];

/// Every kind of deck. That with option 8 has no Rust beside it.
pub fn kinds() -> Vec<Kind> {
    let kind = |name, decks| Kind { name, decks };
    let alone = |name, deck| kind(name, vec![deck]);
    let followed = alone("1,023 inverses, option 8", inverse_chain(11));
    let mut kinds = vec![
        kind(
            REALISTIC,
            SEEDS.map(|seed| realistic(seed, AXIOMS)).to_vec(),
        ),
        kind("small", small()),
        alone("visits in normal forms", visits_in_normal_forms()),
        alone("visits in antecedents", visits_in_antecedents()),
        alone("visits in heads", visits_in_heads()),
        alone("wide, shared branches", wide(64, false)),
        alone("wide, own branches", wide(64, true)),
        alone("wide, 12,288 bodies", wide(192, true)),
        alone("wide, trees", wide_trees(48)),
        alone("reflexive", reflexive(12)),
        alone("2,048 concepts", full_of_concepts()),
        alone("16,384 list members", full_of_members()),
        alone("65,536 clauses", full_of_clauses()),
        alone("1,023 inverses in one chain", inverse_chain(3)),
    ];
    kinds.extend(ours::MEASURED.then_some(followed));
    kinds
}

/// Realistic decks of each size of the series.
pub fn series() -> Vec<(u32, Vec<Vec<u8>>)> {
    SERIES
        .map(|axioms| {
            let seeds = 1..=3;
            (axioms, seeds.map(|seed| realistic(seed, axioms)).collect())
        })
        .to_vec()
}

/// 40 of the tests' small decks, those that are accepted, without options 4 and 8, which the original does not have.
fn small() -> Vec<Vec<u8>> {
    let mut rng = Random::new(1);
    let mut decks = Vec::new();
    while decks.len() < 40 {
        let mut deck = generate(&mut rng, Shape::Small);
        deck.options &= 3;
        if oracle::run(&deck, &Limits::LARGEST).answer.is_ok() {
            decks.push(deck::write(&deck));
        }
    }
    decks
}

#[cfg(test)]
mod tests {
    use super::{AXIOMS, Known, SEEDS, inverse_chain, realistic};

    #[test]
    fn realistic_decks_rise_from_38_to_55_kilobytes() {
        let sizes = SEEDS.map(|seed| realistic(seed, AXIOMS).len());
        assert!(38_000 <= sizes[0] && sizes[0] < 40_000);
        assert!(53_000 <= sizes[11] && sizes[11] < 55_000);
        for pair in sizes.windows(2) {
            assert!(pair[0] < pair[1] && pair[1] - pair[0] < 2_000);
        }
    }

    /// With option 8 every role of the chain becomes its last one: the first takes all steps there are.
    #[test]
    fn one_chain_has_1_023_steps() {
        let [one_step, followed] = [3, 11].map(|options| {
            let known = Known::of(&inverse_chain(options));
            let roles = known.listing.clauses.into_iter().flat_map(|clause| {
                let atoms = clause.body.into_iter().chain(clause.head);
                atoms.filter(|atom| atom[0] == 2).map(|atom| atom[1] / 2)
            });
            let mut roles: Vec<u32> = roles.collect();
            roles.sort_unstable();
            roles.dedup();
            assert_eq!(known.deck.axioms.len(), 1_024);
            roles
        });
        assert!(one_step.len() > 10);
        assert_eq!(followed, [1_023]);
        let run = oracle::run(
            &deck::read(&inverse_chain(11)).unwrap(),
            &super::Limits::LARGEST,
        );
        assert_eq!(run.steps, 1_023);
    }
}
