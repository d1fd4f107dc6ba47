//! Decks to start from, and axiom lines to add to them.

use deck::damage::{damage, over_limit};
use deck::generate::{Shape, any, generate, names_at_limits};
use deck::limits::{AXIOMS, DECK_BYTES, OPTIONS};
use deck::random::Random;
use deck::write::{axiom_row, line_bytes, lists_of_bytes, row};
use deck::{Axiom, Deck};
use entry::{Decks, case};
use oracle::{Limits, run};

/// What a run starts from.
pub const KINDS: [&str; 12] = [
    "a small deck",
    "a deck of any shape",
    "a deck of the later passes",
    "a deck of option 4",
    "a deck without axioms",
    "a header alone",
    "a deck with little room",
    "a deck of many axioms",
    "a damaged deck",
    VISITS,
    POOL,
    FOLLOWED,
];

const VISITS: &str = "a deck of many visits";
const POOL: &str = "a deck with a full pool";
const FOLLOWED: &str = "a deck of option 8";

pub struct Drawn {
    pub kind: String,
    pub deck: Vec<u8>,
    /// Axiom lines that were left out of it.
    pub pool: Vec<Vec<u8>>,
    /// The most calls that follow.
    pub calls: u32,
    /// Whether a taking is refused by 10 or 11 once all these lines are added.
    pub is_scripted: bool,
}

/// After so many seeds the decks that take long come again.
const ROUND: u64 = 200;

/// The deck that a seed's run starts from.
pub fn deck(rng: &mut Random, seed: u64) -> Drawn {
    match seed % ROUND {
        0 => return visits(rng),
        1 => return full_pool(rng),
        _ => {}
    }
    if rng.beside(32).chance(1, 20) {
        return followed(rng);
    }
    let weights = [60, 10, 5, 5, 5, 2, 4, 3, 4];
    of_kind(rng, weights)
}

/// A deck in which a role is followed through two mappings or more, with the option or, at times, without.
fn followed(rng: &mut Random) -> Drawn {
    let draw = |rng: &mut Random| {
        let mut deck = of_entry(rng, Decks::Following);
        deck.options ^= 8 * u32::from(rng.chance(1, 3));
        deck
    };
    let (deck, pool) = split(rng, draw);
    Drawn {
        kind: FOLLOWED.into(),
        deck,
        pool,
        calls: 40,
        is_scripted: false,
    }
}

/// A deck for a start over a session, or over none.
pub fn again(rng: &mut Random) -> Drawn {
    of_kind(rng, [40, 1, 0, 0, 8, 4, 1, 1, 30])
}

fn of_kind(rng: &mut Random, weights: [u32; 9]) -> Drawn {
    let kind = rng.weighted(&weights);
    let mut calls = 40;
    let (deck, pool) = match kind {
        0 => split(rng, small),
        1 => split(rng, |rng| any(rng).1),
        2 => split(rng, |rng| of_entry(rng, Decks::Dwelling)),
        3 => split(rng, |rng| of_entry(rng, Decks::Limits)),
        4 => without_axioms(rng),
        5 => (header(rng), Vec::new()),
        6 => {
            calls = 60;
            (with_little_room(rng), Vec::new())
        }
        7 => (many_axioms(rng), Vec::new()),
        _ => damaged(rng),
    };
    Drawn {
        kind: KINDS[kind].into(),
        deck,
        pool,
        calls,
        is_scripted: false,
    }
}

/// Shapes of small decks, and how often each comes.
const SMALL: [(Shape, u32); 8] = [
    (Shape::Small, 10),
    (Shape::Inverse, 4),
    (Shape::Keys, 4),
    (Shape::AtMost, 4),
    (Shape::MinZero, 2),
    (Shape::Wide, 1),
    (Shape::Disjunctive, 1),
    (Shape::Empty, 1),
];

fn small(rng: &mut Random) -> Deck {
    if rng.beside(32).chance(1, 12) {
        return generate(rng, Shape::Following);
    }
    let weights = SMALL.map(|(_, weight)| weight);
    let (shape, _) = SMALL[rng.weighted(&weights)];
    generate(rng, shape)
}

/// A deck as the whole port is compared on.
fn of_entry(rng: &mut Random, decks: Decks) -> Deck {
    let case = case(rng.bits(), decks);
    deck::read(&case.deck).expect("it is sound")
}

fn lines(axioms: &[Axiom]) -> Vec<Vec<u8>> {
    let line = |axiom| {
        let mut out = Vec::new();
        row(&mut out, &axiom_row(axiom));
        out
    };
    axioms.iter().map(line).collect()
}

/// A deck with some of its axioms, mostly the first ones, and the lines of the others.
fn split(rng: &mut Random, draw: impl Fn(&mut Random) -> Deck) -> (Vec<u8>, Vec<Vec<u8>>) {
    let mut whole = draw(rng);
    let others = if rng.chance(1, 3) {
        Vec::new()
    } else {
        let kept = rng.index(whole.axioms.len() + 1);
        whole.axioms.split_off(kept)
    };
    (deck::write(&whole), lines(&others))
}

fn without_axioms(rng: &mut Random) -> (Vec<u8>, Vec<Vec<u8>>) {
    let mut whole = small(rng);
    let axioms = std::mem::take(&mut whole.axioms);
    (deck::write(&whole), lines(&axioms))
}

fn header(rng: &mut Random) -> Vec<u8> {
    let counts = [1, 2, 3].map(|_| rng.below(4));
    let mut out = Vec::new();
    let [classes, individuals, roles] = counts;
    row(
        &mut out,
        &[0, classes, individuals, roles, rng.below(OPTIONS + 1)],
    );
    out
}

/// A small deck with lists of roles behind it, so that some bytes are left, mostly those of a whole line.
fn with_little_room(rng: &mut Random) -> Vec<u8> {
    let mut deck = small(rng);
    deck.roles = deck.roles.max(1);
    let left = match rng.below(4) {
        0 => rng.index(60),
        _ => line_bytes(1 + rng.index(5)),
    };
    let rest = DECK_BYTES - left - deck::write(&deck).len();
    let lists = lists_of_bytes(rest).into_iter();
    deck.axioms
        .extend(lists.map(|length| Axiom::EquivalentRoles(vec![0; length])));
    deck::write(&deck)
}

/// Mostly refused, by any of 2 to 9.
fn damaged(rng: &mut Random) -> (Vec<u8>, Vec<Vec<u8>>) {
    if rng.chance(1, 12) {
        return (over_limit(rng), Vec::new());
    }
    let whole = match rng.below(6) {
        0 => any(rng).1,
        1 | 2 => generate(rng, Shape::AtMost),
        _ => small(rng),
    };
    (damage(rng, &deck::write(&whole)), lines(&whole.axioms))
}

/// A deck with up to four axioms less than it may have.
fn many_axioms(rng: &mut Random) -> Vec<u8> {
    let mut deck = small(rng);
    deck.roles = deck.roles.max(1);
    let count = AXIOMS - rng.index(5);
    while deck.axioms.len() < count {
        deck.axioms.push(Axiom::Transitive(rng.below(2)));
    }
    deck::write(&deck)
}

/// A deck of more than one million visits.
fn visits(rng: &mut Random) -> Drawn {
    let seed = 4_000 * u64::from(rng.below(1_000_000));
    let seed: u64 = seed + *rng.pick(&[3, 5]);
    let whole = deck::read(&case(seed, Decks::Any).deck).expect("it is sound");
    scripted(rng, VISITS, whole)
}

/// A deck whose normal forms, or whose names, are too many.
fn full_pool(rng: &mut Random) -> Drawn {
    loop {
        let whole = if rng.chance(1, 2) {
            generate(rng, Shape::PoolFull)
        } else {
            names_at_limits(rng)
        };
        let run = run(&whole, &Limits::LARGEST);
        if run.answer.is_err_and(|refusal| refusal.number == 11) {
            return scripted(rng, POOL, whole);
        }
    }
}

/// The last axioms wait.
fn scripted(rng: &mut Random, kind: &str, mut whole: Deck) -> Drawn {
    let kept = whole.axioms.len().saturating_sub(1 + rng.index(3));
    let others = whole.axioms.split_off(kept);
    Drawn {
        kind: kind.into(),
        deck: deck::write(&whole),
        pool: lines(&others),
        calls: 16,
        is_scripted: true,
    }
}
