//! The verdicts in words.

use gorvask::{Clauses, Names, Test, Trial, Tried, var_name};

use super::assigned::assigned;
use super::axiom;
use super::kinds::CHAIN;
use crate::input::Input;

/// What the words are taken from.
pub struct Words<'a> {
    pub deck: &'a Input,
    pub names: &'a Names,
}

impl Words<'_> {
    /// One line where all hold; otherwise one with what is broken, and one with the elements.
    pub fn of(&self, test: Test, trial: &Trial<'_>) -> String {
        match (test, &trial.tried) {
            (Test::Axioms, Tried::Holds) => "axioms: all hold\n".to_owned(),
            (Test::Clauses, Tried::Holds) => "clauses: all hold\n".to_owned(),
            (Test::Axioms, Tried::Broken { number, elements }) => self.axiom(*number, elements),
            (Test::Clauses, Tried::Broken { number, elements }) => {
                self.clause(&trial.clauses, *number, elements)
            }
        }
    }

    fn axiom(&self, line: u32, elements: &[u32]) -> String {
        let kind = axiom::kind(self.deck, line).expect("a broken axiom has its line");
        let text = axiom::text(self.deck, line, self.names);
        let variables: Vec<String> = if kind.number == CHAIN {
            (0..elements.len())
                .map(|place| format!("y{place}"))
                .collect()
        } else {
            kind.variables.iter().map(ToString::to_string).collect()
        };
        let assigned = assigned(variables, elements, self.names);
        let colon = if assigned.is_empty() { "" } else { ": " };
        format!(
            "axioms: line {line} is broken, kind {}: {text}\n        {}{colon}{assigned}\n",
            kind.number, kind.broken
        )
    }

    fn clause(&self, clauses: &Clauses<'_>, number: u32, elements: &[u32]) -> String {
        let place = usize::try_from(number).expect("a number fits in an index");
        let clause = clauses.get(place).expect("a broken clause has its number");
        let text = clause.with_names(self.names);
        let variables = clause
            .variables()
            .into_iter()
            .map(|var| var_name(var).to_string());
        let assigned = match assigned(variables, elements, self.names) {
            assigned if assigned.is_empty() => "it has no variable".to_owned(),
            assigned => assigned,
        };
        format!("clauses: clause {number} is broken: {text}\n         {assigned}\n")
    }
}
