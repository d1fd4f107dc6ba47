//! The second evaluator: states and their tests, read, kept and gone through in its own way.

pub mod axioms;
mod chain;
pub mod clauses;
pub mod concepts;
pub mod judge;
pub mod least;
pub mod read;
pub mod state;
pub mod world;
