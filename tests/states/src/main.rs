//! The proved library and the second evaluator on written and on generated decks and states. The last line is 'N passed, M failed'.

use std::error::Error;
use std::process::ExitCode;

use lent::{gorvask_try_axioms, gorvask_try_clauses};
use states::{Library, Until, compare, compare_written};

const USAGE: &str = "states SEED COUNT, or states SEED --seconds N";

const LIBRARY: Library = Library {
    axioms: gorvask_try_axioms,
    clauses: gorvask_try_clauses,
};

fn main() -> Result<ExitCode, Box<dyn Error>> {
    let arguments: Vec<String> = std::env::args().skip(1).collect();
    let words: Vec<&str> = arguments.iter().map(String::as_str).collect();
    let (seed, until) = match words[..] {
        [seed, "--seconds", seconds] => (seed.parse()?, Until::Seconds(seconds.parse()?)),
        [seed, count] => (seed.parse()?, Until::Count(count.parse()?)),
        _ => return Err(USAGE.into()),
    };
    // One pair once more needs no others.
    let is_all = matches!(until, Until::Seconds(_));
    let good = (!is_all || compare_written(&LIBRARY)) && compare(&LIBRARY, seed, &until);
    Ok(if good {
        ExitCode::SUCCESS
    } else {
        ExitCode::FAILURE
    })
}
