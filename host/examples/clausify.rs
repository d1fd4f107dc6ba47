//! Prints the clauses of a deck: `cargo run --example clausify -- DECK`. The command `gorvask text` does more.

use std::env;
use std::error::Error;
use std::fs;
use std::process::ExitCode;

use gorvask::Clausifier;

fn main() -> ExitCode {
    let Some(path) = env::args().nth(1) else {
        eprintln!("usage: clausify DECK");
        return ExitCode::from(2);
    };
    match print(&path) {
        Ok(()) => ExitCode::SUCCESS,
        Err(error) => {
            eprintln!("{path}: {error}");
            ExitCode::FAILURE
        }
    }
}

fn print(path: &str) -> Result<(), Box<dyn Error>> {
    let deck = fs::read(path)?;
    let mut clausifier = Clausifier::new();
    let clauses = clausifier.clausify(&deck)?;
    for (number, clause) in clauses.iter().enumerate() {
        println!("{number:5}  {clause}");
    }
    println!("{}", clauses.provisos());
    Ok(())
}
