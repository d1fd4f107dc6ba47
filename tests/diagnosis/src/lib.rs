//! The host's diagnosis of a refused deck or state, taken from its source, so that the static library that the host links is not
//! needed.

#[path = "../../../host/src/diagnosis/mod.rs"]
mod diagnosis;

pub use diagnosis::{Diagnosis, diagnose, session, state};
