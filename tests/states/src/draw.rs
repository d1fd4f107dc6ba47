//! Decks, states and texts, drawn from a seed.

pub mod damage;
pub mod decks;
pub mod fresh;
pub mod many;
mod names;
mod repair;
mod shapes;
pub mod states;
