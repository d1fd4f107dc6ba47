//! The limits of document 01 that a deck is checked against.

/// Bytes of a deck.
pub const DECK_BYTES: usize = 65_536;
/// Columns of a number.
pub const FIELD: usize = 11;
pub const CLASSES: u32 = 4_096;
pub const INDIVIDUALS: u32 = 4_096;
pub const ROLES: u32 = 1_024;
pub const OPTIONS: u32 = 15;
/// Members of a list.
pub const LIST: usize = 128;
/// Concept lines.
pub const CONCEPTS: usize = 1_024;
/// Axiom lines.
pub const AXIOMS: usize = 1_024;
/// Nesting of a concept; a leaf has depth 1.
pub const DEPTH: u32 = 64;
