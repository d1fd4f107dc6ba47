//! The tables that a caller of the proved library lends: their sizes, buffers that are watched; its entries, and what a build
//! script needs to link it.

mod library;
mod link;
mod table;
mod tables;

pub use library::{
    Clausify, SessionNumber, SessionTake, SessionText, Try, gorvask_clausify_with_stats,
    gorvask_session_add, gorvask_session_options, gorvask_session_start, gorvask_session_strike,
    gorvask_session_take, gorvask_try_axioms, gorvask_try_clauses,
};
pub use link::link;
pub use table::Lent;
pub use tables::Tables;

/// Bytes of a clause's record, an atom's and a deferral's.
pub const RECORDS: [usize; 3] = [CLAUSE, ATOM, DEFERRAL];
pub const CLAUSE: usize = 12;
pub const ATOM: usize = 24;
pub const DEFERRAL: usize = 8;

/// The least bytes of scratch.
pub const SCRATCH: usize = 1_572_864;

/// The least bytes of the store of a state's test.
pub const STORE: usize = 65_536;

/// The bytes of a session: a word, and a deck of any length.
pub const SESSION: usize = 65_540;

/// A word's four bytes, low byte first.
#[must_use]
pub fn bytes(words: &[u32]) -> Vec<u8> {
    words.iter().flat_map(|word| word.to_le_bytes()).collect()
}

/// The words of whole words' bytes.
#[must_use]
pub fn words(bytes: &[u8]) -> Vec<u32> {
    let (words, _) = bytes.as_chunks();
    words.iter().map(|&word| u32::from_le_bytes(word)).collect()
}

/// The first byte that is not 0.
#[must_use]
pub fn first_not_zero(bytes: &[u8]) -> Option<usize> {
    let is_dirty = |chunk: &[u8]| chunk.iter().fold(0, |all, &byte| all | byte) != 0;
    let chunk = bytes.chunks(4_096).position(is_dirty)?;
    let within = bytes[4_096 * chunk..].iter().position(|&byte| byte != 0);
    within.map(|place| 4_096 * chunk + place)
}
