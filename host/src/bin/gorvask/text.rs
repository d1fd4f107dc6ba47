//! `gorvask text`: the clauses in logical notation.

mod company;

use std::io::{self, Write};

use gorvask::{Clauses, Clausifier, Names};

use crate::accepted::promise;
use crate::arguments::{Arguments, Files};
use crate::ended::{Failure, Status};
use crate::input::Input;
use crate::names::{self, NamesFile};
use crate::output;
use crate::refused::{Lent, explain};
use crate::subcommand::Subcommand;
use crate::summary::summary;
use company::Company;

pub const SUBCOMMAND: Subcommand = Subcommand {
    name: "text",
    files: Files::Deck,
    options: &[names::FORM],
    run,
};

fn run(arguments: &Arguments) -> Result<Status, Failure> {
    let file = NamesFile::read(arguments)?;
    let deck = Input::deck(arguments.deck())?;
    match Clausifier::new().clausify(&deck.bytes) {
        Ok(clauses) => {
            let names = file.fitting(clauses.header())?;
            output::write(|out| print(&clauses, names, out))?;
            promise(&deck, &clauses)
        }
        Err(refusal) => explain(&deck, refusal, Lent::Largest),
    }
}

/// The clauses, the deferrals and the numbers.
fn print(clauses: &Clauses<'_>, names: &Names, out: &mut dyn Write) -> io::Result<()> {
    let company = Company::new(clauses);
    for number in 0..clauses.len() {
        print_clause(clauses, number, &company, names, out)?;
    }
    let mut deferrals = clauses.deferrals();
    deferrals.try_for_each(|deferral| writeln!(out, "deferred: {deferral}"))?;
    out.write_all(summary(clauses).as_bytes())
}

/// A clause with its number, and under it those that say more of its fresh classes.
fn print_clause(
    clauses: &Clauses<'_>,
    number: usize,
    company: &Company,
    names: &Names,
    out: &mut dyn Write,
) -> io::Result<()> {
    let clause = |number| clauses.get(number).expect("a clause of that number");
    writeln!(out, "{number:5}  {}", clause(number).with_names(names))?;
    for other in company.of(number, clause(number)) {
        let text = clause(other).with_names(names);
        writeln!(out, "       with {other}: {text}")?;
    }
    Ok(())
}
