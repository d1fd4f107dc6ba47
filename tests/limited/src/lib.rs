//! The original clausifier with visits counted, limits tested and stages kept: a copy made by exact replacements.

include!(concat!(env!("OUT_DIR"), "/modules.rs"));

pub mod limits;

pub use dropped::DroppedAxioms;
pub use ir::ConceptPool;
pub use vocab::Vocabulary;

use clause::{ClauseStats, DlClause};
use limits::{Refused, Report, Settings};
use ontology::{Axiom, InternalOntology};

/// Class IRIs that begin so are data keys.
pub const KEY: &str = "key:";

/// Stands in for the original's test, which is in a file that is not at hand: a deck's key marks decide.
#[must_use]
pub fn is_dkey_iri(iri: &str) -> bool {
    iri.starts_with(KEY)
}

/// `clausify_with_stats` under limits. The pool's present records and members count towards them.
pub fn clausify(
    ontology: &InternalOntology,
    settings: Settings,
) -> (Result<(Vec<DlClause>, ClauseStats), Refused>, Report) {
    limits::run(settings, &ontology.concepts, || {
        clause::clausify_with_stats(ontology)
    })
}

/// `nnf_axioms` under limits: the pool that it leaves, and the axioms.
pub fn normalise(
    ontology: &InternalOntology,
    settings: Settings,
) -> (Result<(ConceptPool, Vec<Axiom>), Refused>, Report) {
    limits::run(settings, &ontology.concepts, || {
        let mut ontology = ontology.clone();
        let axioms = normalize::nnf_axioms(&mut ontology);
        (ontology.concepts, axioms)
    })
}
