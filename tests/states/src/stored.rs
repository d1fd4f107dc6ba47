//! A stored pair: what is lent for it, and what the library leaves.

use std::io;

use deck::random::Random;
use deck::read::numbers;
use deck::write::row;

use crate::call::{Call, Library, Sizes};
use crate::verdict::Test;

/// What a sample holds in a deck's place: a row of 40, the records of the three tables, the bytes of the store and those of the
/// deck; then the deck, then the state.
///
/// # Panics
/// If a size does not fit in a word.
#[must_use]
pub fn input(rooms: [usize; 3], store: usize, [deck, state]: [&[u8]; 2]) -> Vec<u8> {
    let [clauses, atoms, deferrals] = rooms;
    let sizes = [clauses, atoms, deferrals, store, deck.len()];
    let sizes = sizes.map(|size| u32::try_from(size).expect("a word"));
    let mut out = Vec::new();
    row(&mut out, &[&[40], &sizes[..]].concat());
    out.extend_from_slice(deck);
    out.extend_from_slice(state);
    out
}

/// The sizes, the deck and the state.
fn parts(input: &[u8]) -> Option<(Sizes, [&[u8]; 2])> {
    let end = input.iter().position(|&byte| byte == b'\n')?;
    let (first, texts) = input.split_at(end + 1);
    let [40, clauses, atoms, deferrals, store, deck_len] = numbers(first)?[..] else {
        return None;
    };
    let rooms = [clauses, atoms, deferrals].map(|room| room as usize);
    let (deck, state) = texts.split_at_checked(deck_len as usize)?;
    Some((Sizes::of_rooms(rooms, store as usize), [deck, state]))
}

/// What the library leaves after both tests, as text. The seed decides where the tables lie, and their dirt.
///
/// # Errors
/// If the input has another form, or if something stands where it may not.
pub fn answer(library: &Library, seed: u64, input: &[u8]) -> io::Result<Vec<u8>> {
    let no_row = "no row of 40 and five numbers";
    let (sizes, texts) = parts(input).ok_or(io::Error::other(no_row))?;
    let mut call = Call::default();
    let mut rng = Random::new(seed);
    let mut out = Vec::new();
    for test in Test::BOTH {
        let reply = call.make(&mut rng, library.entry(test), texts, &sizes);
        let left = call.left(reply, texts).map_err(io::Error::other)?;
        left.write(test, &mut out);
    }
    Ok(out)
}
