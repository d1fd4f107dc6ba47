//! What a run had made at the ends of its passes, in the deck's own terms.

use std::collections::BTreeMap;

use limited::limits::Pass;

use crate::{Clause, Normalised, instrumented, number};

/// As far as the run came.
#[derive(Clone, Debug, Default, PartialEq, Eq)]
pub struct Stages {
    /// The pool's records and the axioms once all axioms are normalised.
    pub normalised: Option<Normalised>,
    /// What there was after each pass.
    pub passes: BTreeMap<Pass, Passed>,
}

/// What a run had made at the end of a pass.
#[derive(Clone, Debug, Default, PartialEq, Eq)]
pub struct Passed {
    pub clauses: Vec<Clause>,
    /// Axiom line and kind, in the order of the run.
    pub deferrals: Vec<(u32, u32)>,
    /// Fresh class ids taken.
    pub fresh: u32,
    pub visits: u32,
    /// Records of the concept pool, and members of its And and Or records.
    pub concepts: u32,
    pub members: u32,
}

impl From<&limited::limits::Stages> for Stages {
    fn from(stages: &limited::limits::Stages) -> Self {
        let normalised = stages.normalised.as_ref().map(|(records, axioms)| {
            (
                records.iter().map(instrumented::concept).collect(),
                axioms.iter().map(instrumented::line).collect(),
            )
        });
        let passes = stages
            .passes
            .iter()
            .map(|(&pass, passed)| (pass, Passed::from(passed)));
        Self {
            normalised,
            passes: passes.collect(),
        }
    }
}

impl From<&limited::limits::Passed> for Passed {
    fn from(passed: &limited::limits::Passed) -> Self {
        Self {
            clauses: passed.clauses.iter().map(instrumented::clause).collect(),
            deferrals: passed.deferrals.clone(),
            fresh: number(passed.fresh),
            visits: number(passed.visits),
            concepts: number(passed.concepts),
            members: number(passed.members),
        }
    }
}
