//! The original clausifier, built from its unmodified files.

include!(concat!(env!("OUT_DIR"), "/modules.rs"));

pub use dropped::DroppedAxioms;
pub use ir::ConceptPool;
pub use vocab::Vocabulary;

/// Class IRIs that begin so are data keys.
pub const KEY: &str = "key:";

/// Stands in for the original's test, which is in a file that is not at hand: a deck's key marks decide.
#[must_use]
pub fn is_dkey_iri(iri: &str) -> bool {
    iri.starts_with(KEY)
}
