//! A stored deck: what is lent for it, and what the library leaves.

use std::io;

use deck::random::Random;
use deck::read::numbers;
use deck::write::row;
use lent::Clausify;

use crate::call::{Call, Sizes};

/// What a sample holds in a deck's place: a row of 40 and the records of the three tables, then the deck.
#[must_use]
pub fn input(rooms: [usize; 3], deck: &[u8]) -> Vec<u8> {
    let [clauses, atoms, deferrals] = rooms.map(|room| u32::try_from(room).expect("a table's"));
    let mut out = Vec::new();
    row(&mut out, &[40, clauses, atoms, deferrals]);
    out.extend_from_slice(deck);
    out
}

/// The records of the three tables, and the deck.
fn parts(input: &[u8]) -> Option<([usize; 3], &[u8])> {
    let end = input.iter().position(|&byte| byte == b'\n')?;
    let (first, deck) = input.split_at(end + 1);
    let [40, clauses, atoms, deferrals] = numbers(first)?[..] else {
        return None;
    };
    let rooms = [clauses, atoms, deferrals].map(|room| room as usize);
    Some((rooms, deck))
}

/// What the library leaves, as text. The seed decides where the tables lie, and their dirt.
///
/// # Errors
/// If the input has another form, or if something stands where it may not.
pub fn answer(library: Clausify, seed: u64, input: &[u8]) -> io::Result<Vec<u8>> {
    let (rooms, deck) = parts(input).ok_or(io::Error::other("no row of 40 and three numbers"))?;
    let mut call = Call::default();
    let sizes = Sizes::of_rooms(rooms);
    let reply = call.make(&mut Random::new(seed), library, deck, &sizes);
    let left = call.left(reply, deck).map_err(io::Error::other)?;
    Ok(left.write())
}
