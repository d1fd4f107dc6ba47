//! The stack that a call takes: decks that take much of it, and how much that is.

#[cfg(feature = "linked")]
pub mod call;
pub mod decks;
mod paint;

pub use paint::taken;
