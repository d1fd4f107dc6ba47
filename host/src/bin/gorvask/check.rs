//! `gorvask check`: the verdict and the statistics.

use gorvask::Clausifier;

use crate::accepted::promise;
use crate::arguments::{Arguments, Files};
use crate::ended::{Failure, Status};
use crate::input::Input;
use crate::output;
use crate::refused::{Lent, explain};
use crate::subcommand::Subcommand;
use crate::summary::summary;

pub const SUBCOMMAND: Subcommand = Subcommand {
    name: "check",
    files: Files::Deck,
    options: &[],
    run,
};

fn run(arguments: &Arguments) -> Result<Status, Failure> {
    let deck = Input::deck(arguments.deck())?;
    match Clausifier::new().clausify(&deck.bytes) {
        Ok(clauses) => {
            let is_whole = clauses.provisos().are_met();
            let not = if is_whole { "" } else { "not " };
            output::write(|out| {
                write!(out, "accepted, {not}promised whole\n{}", summary(&clauses))
            })?;
            promise(&deck, &clauses)
        }
        Err(refusal) => {
            let (number, line) = (refusal.number(), refusal.line().unwrap_or(0));
            output::write(|out| writeln!(out, "refused by number {number}, line {line}"))?;
            explain(&deck, refusal, Lent::Largest)
        }
    }
}
