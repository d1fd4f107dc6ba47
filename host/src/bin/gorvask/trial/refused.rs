//! What is said where a test is refused.

use gorvask::diagnosis::state::{Counts, diagnose};
use gorvask::{Clauses, Clausifier, Names, Refusal, RefusalKind};

use crate::ended::{Failure, Status, tell};
use crate::input::Input;
use crate::names::NamesFile;
use crate::refused::{Lent, explain as explain_deck, tell_cause, tell_line, tell_refusal};

/// The most variables of a clause that is tested.
const VARIABLES: usize = 4;

/// Lines on standard error, as of a refused deck. Of 13 and 14 the deck itself is accepted, and its run tells more of the cause.
pub fn explain(
    deck: &Input,
    state: &Input,
    refusal: Refusal,
    file: &NamesFile,
) -> Result<Status, Failure> {
    match refusal.kind() {
        RefusalKind::BadState => {
            tell_refusal(state, refusal)?;
            tell_line(state, refusal)?;
            with_clauses(deck, |clauses| {
                tell_cause(diagnose(counts(clauses), &state.bytes), refusal)
            })?;
        }
        RefusalKind::WideClause => {
            tell_refusal(deck, refusal)?;
            with_clauses(deck, |clauses| {
                let names = file.fitting(clauses.header())?;
                wide(clauses, names).map_or(Ok(()), |words| Ok(tell(&words)?))
            })?;
        }
        _ => return explain_deck(deck, refusal, Lent::Largest),
    }
    Ok(Status::Refused)
}

fn with_clauses(
    deck: &Input,
    tell_more: impl FnOnce(&Clauses<'_>) -> Result<(), Failure>,
) -> Result<(), Failure> {
    let mut clausifier = Clausifier::new();
    let clauses = clausifier.clausify(&deck.bytes);
    clauses.map_or(Ok(()), |clauses| tell_more(&clauses))
}

fn counts(clauses: &Clauses<'_>) -> Counts {
    let header = clauses.header();
    Counts {
        classes: header.classes,
        individuals: header.individuals,
        roles: header.roles,
        fresh: clauses.fresh_ids(),
    }
}

/// The first clause with too many variables.
fn wide(clauses: &Clauses<'_>, names: &Names) -> Option<String> {
    let mut numbered = clauses.iter().enumerate();
    let (number, clause) = numbered.find(|(_, clause)| clause.variables().len() > VARIABLES)?;
    let variables = clause.variables().len();
    let text = clause.with_names(names);
    Some(format!(
        "the first such clause is {number}, with {variables} variables: {text}"
    ))
}
