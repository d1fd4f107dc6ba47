//! `gorvask list`: the listing, rows of numbers.

use std::io::{self, Write};
use std::iter::once;

use gorvask::{Clause, Clauses, Clausifier, Refusal, Sizes};

use crate::accepted::promise;
use crate::arguments::{Arguments, Files, Form};
use crate::ended::{Failure, Status};
use crate::input::Input;
use crate::output;
use crate::refused::{Lent, explain};
use crate::row::row;
use crate::subcommand::Subcommand;

const LISTER_TABLES: &str = "--lister-tables";

pub const SUBCOMMAND: Subcommand = Subcommand {
    name: "list",
    files: Files::Deck,
    options: &[Form {
        name: LISTER_TABLES,
        value: None,
    }],
    run,
};

fn run(arguments: &Arguments) -> Result<Status, Failure> {
    let deck = Input::deck(arguments.deck())?;
    if arguments.option(LISTER_TABLES).is_some() {
        let mut clausifier = Clausifier::with_sizes(Sizes::LISTER);
        answer(&deck, clausifier.clausify_fixed(&deck.bytes), Lent::Lister)
    } else {
        let mut clausifier = Clausifier::new();
        answer(&deck, clausifier.clausify(&deck.bytes), Lent::Largest)
    }
}

/// The listing, or the row of the refusal, and what is said of either.
pub fn answer(
    deck: &Input,
    answer: Result<Clauses<'_>, Refusal>,
    lent: Lent,
) -> Result<Status, Failure> {
    match answer {
        Ok(clauses) => {
            output::write(|out| accepted(&clauses, out))?;
            promise(deck, &clauses)
        }
        Err(refusal) => {
            let numbers = [49, refusal.number(), refusal.line().unwrap_or(0)];
            output::write(|out| row(out, numbers))?;
            explain(deck, refusal, lent)
        }
    }
}

/// The clauses, then 43 with the numbers.
fn accepted(clauses: &Clauses<'_>, out: &mut dyn Write) -> io::Result<()> {
    for (number, listed) in (0..).zip(clauses) {
        clause(out, number, listed)?;
    }
    let numbers = clauses.statistics().words();
    let behind = [clauses.fresh_ids(), clauses.visits()];
    row(out, once(43).chain(numbers).chain(behind))
}

/// 41 for the clause, 42 for each atom.
fn clause(out: &mut dyn Write, number: u32, clause: Clause<'_>) -> io::Result<()> {
    let [body, head] = [clause.body().len(), clause.head().len()].map(count);
    row(out, [41, number, body, head])?;
    let mut atoms = clause.body().chain(clause.head());
    atoms.try_for_each(|atom| row(out, once(42).chain(atom.words())))
}

fn count(atoms: usize) -> u32 {
    u32::try_from(atoms).expect("a side has at most 256 atoms")
}
