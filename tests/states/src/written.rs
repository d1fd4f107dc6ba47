//! Decks and states written by hand, each with what both tests say of them.

mod bad_lines;
mod chains;
mod concepts;
mod examples;
mod kinds;
mod large;
mod limits;
mod lists;
mod order;
mod roles;

use deck::write::row;
use lent::STORE;

/// A deck, a state and both answers, as numbers: 0 holds; 1, line or number, elements; 2, refusal, line.
#[derive(Clone, Debug)]
pub struct Written {
    pub name: String,
    pub deck: Vec<u8>,
    pub state: Vec<u8>,
    /// Records of the three tables.
    pub rooms: [usize; 3],
    pub store: usize,
    pub axioms: Vec<u32>,
    pub clauses: Vec<u32>,
}

impl Written {
    fn new(name: &str, deck: &[u8], state: &[u8], axioms: &[u32], clauses: &[u32]) -> Self {
        Self {
            name: name.into(),
            deck: deck.to_vec(),
            state: state.to_vec(),
            rooms: [64, 256, 16],
            store: STORE,
            axioms: axioms.to_vec(),
            clauses: clauses.to_vec(),
        }
    }

    /// Both tests refuse.
    fn refused(name: &str, deck: &[u8], state: &[u8], number: u32, line: u32) -> Self {
        let answer = [2, number, line];
        Self::new(name, deck, state, &answer, &answer)
    }
}

/// The lines of a text: numbers, and a semicolon between two lines.
fn lines(text: &str) -> Vec<u8> {
    let mut out = Vec::new();
    for line in text.split(';') {
        let numbers: Result<Vec<u32>, _> = line.split_whitespace().map(str::parse).collect();
        row(&mut out, &numbers.expect("numbers"));
    }
    out
}

/// What is written for one deck: name, state, both answers.
type Told<'a> = (&'a str, &'a str, &'a [u32], &'a [u32]);

fn of_deck(deck: &str, all: &[Told]) -> Vec<Written> {
    let deck = lines(deck);
    let written = all.iter().map(|&(name, state, axioms, clauses)| {
        Written::new(name, &deck, &lines(state), axioms, clauses)
    });
    written.collect()
}

/// All of them that are short enough to be stored.
#[must_use]
pub fn short() -> Vec<Written> {
    [
        examples::all(),
        kinds::all(),
        lists::all(),
        roles::all(),
        chains::all(),
        concepts::all(),
        limits::all(),
        bad_lines::all(),
        order::all(),
    ]
    .concat()
}

/// The others.
#[must_use]
pub fn long() -> Vec<Written> {
    large::all()
}
