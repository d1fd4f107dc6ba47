//! Texts to be added: axiom lines, and what is no such line.

use deck::damage::damage;
use deck::generate::axiom_of;
use deck::limits::{DECK_BYTES, LIST};
use deck::random::Random;
use deck::write::{axiom_row, line_bytes, row};
use deck::{Axiom, Deck};

use crate::second::Session;

/// What a text is.
pub const KINDS: [&str; 17] = [
    "a line that was left out of a deck",
    "a line over the deck's names",
    "a long list",
    "a line up to the end",
    "a damaged line",
    "two lines",
    "two lines, the first broken",
    "a line and something behind it",
    "a line without its line feed",
    "nothing",
    "a concept line",
    "a header or a key mark",
    "a kind that there is not",
    "a number too many or too few",
    "a name that is not declared",
    "a list of 129",
    "more than fits",
];

/// A text for a live deck, and what it is. A line of the pool is taken out of it.
pub fn text(
    rng: &mut Random,
    session: Option<&Session>,
    pool: &mut Vec<Vec<u8>>,
) -> (Vec<u8>, &'static str) {
    let deck = session.map_or_else(Deck::default, Session::deck);
    let room = session.map_or(0, |session| DECK_BYTES - session.text().len());
    let weights = [90, 50, 4, 4, 6, 3, 2, 3, 3, 3, 5, 3, 4, 4, 6, 3, 3];
    let kind = match rng.weighted(&weights) {
        0 if pool.is_empty() => 1,
        3 if room > 1_600 => 1,
        kind => kind,
    };
    // Little room is used up.
    let kind = if room < 120 && rng.chance(1, 2) {
        3
    } else {
        kind
    };
    let text = match kind {
        0 => pool.remove(rng.index(pool.len().min(3))),
        1 => line(&good(rng, &deck)),
        2 => {
            let members = LIST - rng.index(3);
            line(&long_list(rng, &deck, members))
        }
        3 => up_to(rng, &deck, room),
        4 => {
            let good = line(&good(rng, &deck));
            damage(rng, &good)
        }
        5..=9 => other_lines(rng, &deck, kind),
        10..=12 => other_kind(rng, &deck, kind),
        13 => line(&other_count(rng, &deck)),
        14 => line(&undeclared(rng, &deck)),
        15 => line(&long_list(rng, &deck, LIST + 1)),
        _ => too_long(rng, &deck, room),
    };
    (text, KINDS[kind])
}

fn line(numbers: &[u32]) -> Vec<u8> {
    let mut out = Vec::new();
    row(&mut out, numbers);
    out
}

/// The numbers of an axiom line over a deck's names.
fn good(rng: &mut Random, deck: &Deck) -> Vec<u32> {
    axiom_row(&axiom_of(rng, deck))
}

/// A list of concepts or of roles, also where there is none to name.
fn long_list(rng: &mut Random, deck: &Deck, members: usize) -> Vec<u32> {
    let concepts = u32::try_from(deck.concepts.len()).expect("at most 1,024");
    let (front, names): (&[u32], u32) = match rng.below(6) {
        0 => (&[22], concepts),
        1 => (&[23], concepts),
        2 => (&[24, 0], concepts),
        3 => (&[27, 0], 2 * deck.roles),
        4 => (&[31], 2 * deck.roles),
        _ => (&[34], 2 * deck.roles),
    };
    let list = (0..members).map(|_| rng.below(names.max(1)));
    front.iter().copied().chain(list).collect()
}

/// A line that takes up just the room that is left, or a byte or a number more or less.
fn up_to(rng: &mut Random, deck: &Deck, room: usize) -> Vec<u8> {
    let fields = room.saturating_sub(1) / (line_bytes(1) - 1);
    let numbers = match rng.below(8) {
        0 => fields + 1,
        1 => fields.saturating_sub(1),
        _ => fields,
    };
    let members = numbers.saturating_sub(1).min(LIST);
    let mut text = if deck.roles == 0 {
        line(&long_list(rng, deck, members))
    } else {
        line(&axiom_row(&Axiom::EquivalentRoles(vec![0; members])))
    };
    if rng.chance(1, 10) {
        text.insert(0, b' ');
    }
    text
}

/// Other than one whole line.
fn other_lines(rng: &mut Random, deck: &Deck, kind: usize) -> Vec<u8> {
    let [first, second] = [(); 2].map(|()| line(&good(rng, deck)));
    match kind {
        5 => [first, second].concat(),
        6 => {
            let mut broken = first;
            let place = rng.index(broken.len() - 1);
            broken[place] = *rng.pick(b"x.\t-");
            [broken, second].concat()
        }
        7 => {
            let behind: [&[u8]; 6] = [b" ", b"\n", b"\0", b"x", b"         21", b"\r\n"];
            [&first[..], *rng.pick(&behind)].concat()
        }
        8 => {
            let mut text = first;
            text.pop();
            if rng.chance(1, 4) {
                text.push(*rng.pick(b"\r\0 "));
            }
            text
        }
        _ => Vec::new(),
    }
}

/// A line of another section, or of none.
fn other_kind(rng: &mut Random, deck: &Deck, kind: usize) -> Vec<u8> {
    let concept = *rng.pick(&[1, 2, 3, 4, 6, 9]);
    let numbers = match kind {
        10 if concept <= 2 => vec![concept],
        10 if concept == 9 => vec![concept, 0, 0],
        10 => {
            let last = u32::try_from(deck.concepts.len()).expect("at most 1,024");
            let names = [deck.classes, deck.individuals, last.max(1)];
            let end = *rng.pick(&names);
            vec![concept, rng.below(end.max(1))]
        }
        11 if rng.chance(1, 2) => vec![14, 0],
        11 => vec![0, deck.classes, deck.individuals, deck.roles, deck.options],
        _ => {
            let kinds = [
                13,
                15,
                16,
                19,
                20,
                37,
                38,
                41,
                50,
                53,
                2_147_483_669,
                u32::MAX,
            ];
            let mut numbers = good(rng, deck);
            numbers[0] = *rng.pick(&kinds);
            numbers
        }
    };
    line(&numbers)
}

/// A number too many, or the last one missing.
fn other_count(rng: &mut Random, deck: &Deck) -> Vec<u32> {
    let mut numbers = good(rng, deck);
    if rng.chance(1, 2) {
        numbers.push(0);
    } else {
        numbers.pop();
    }
    if numbers.is_empty() {
        numbers.push(28);
    }
    numbers
}

/// One of the numbers is beyond what the deck has, or just at its end.
fn undeclared(rng: &mut Random, deck: &Deck) -> Vec<u32> {
    let mut numbers = good(rng, deck);
    let concepts = u32::try_from(deck.concepts.len()).expect("at most 1,024");
    let ends = [
        deck.classes,
        deck.individuals,
        2 * deck.roles,
        2 * deck.roles + 1,
        concepts,
        concepts + 1,
        u32::MAX,
    ];
    if numbers.len() == 1 {
        return vec![28, *rng.pick(&ends)];
    }
    let place = 1 + rng.index(numbers.len() - 1);
    numbers[place] = *rng.pick(&ends);
    numbers
}

/// More bytes than are left: a line, many lines, or anything.
fn too_long(rng: &mut Random, deck: &Deck, room: usize) -> Vec<u8> {
    let bytes = room + 1 + rng.index(3);
    match rng.below(4) {
        0 => vec![b'x'; bytes],
        1 => vec![b'\n'; *rng.pick(&[DECK_BYTES, DECK_BYTES + 1, 1 << 20])],
        _ => {
            let good = line(&good(rng, deck));
            good.repeat(bytes.div_ceil(good.len()))
        }
    }
}
