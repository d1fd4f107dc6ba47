//! Refusal 6: a concept names earlier ones, and nests at most 64 deep.

use super::fault::Fault;
use super::known::{Concept, Known};
use super::row::{Entry, Row};

/// Nesting of a concept; a leaf has depth 1.
const DEPTH: u32 = 64;

pub(super) fn check(known: &Known, row: &Row) -> Result<(), Fault> {
    let fault = |part: Entry, cause: String| Fault::new(6, cause).at(row.place(part.index));
    let own = known.concept_count();
    if let Some(part) = row.parts().find(|part| part.value >= own) {
        return Err(fault(part, not_earlier(own, part.value)));
    }
    match deepest(known, row) {
        Some((part, concept)) if concept.depth >= DEPTH => {
            let cause = too_deep(own, part.value, concept);
            Err(fault(part, cause))
        }
        _ => Ok(()),
    }
}

/// The part that nests deepest, of a concept whose parts are earlier ones.
fn deepest<'a>(known: &'a Known, row: &Row) -> Option<(Entry, &'a Concept)> {
    let parts = row.parts().map(|part| (part, known.concept(part.value)));
    parts.max_by_key(|(_, concept)| concept.depth)
}

/// The depth of a concept whose parts are earlier ones.
pub(super) fn depth(known: &Known, row: &Row) -> u32 {
    deepest(known, row).map_or(0, |(_, concept)| concept.depth) + 1
}

fn not_earlier(own: u32, part: u32) -> String {
    let earlier = match own {
        0 => "no concept stands before it".into(),
        1 => "only concept 0 stands before it".into(),
        _ => format!("only concepts 0 to {} stand before it", own - 1),
    };
    if part == own {
        format!("concept {own} names itself; {earlier}")
    } else {
        format!("concept {own} names concept {part}; {earlier}")
    }
}

fn too_deep(own: u32, part: u32, concept: &Concept) -> String {
    let Concept { line, depth, .. } = concept;
    let found = format!(
        "concept {own} has depth {}, and {DEPTH} is the most",
        depth + 1
    );
    format!("{found}; concept {part}, on line {line}, has depth {depth}")
}
