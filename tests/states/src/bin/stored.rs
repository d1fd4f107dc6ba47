//! The proved library on each pair of the samples. The last line is 'N passed, M failed'.

use std::error::Error;
use std::process::ExitCode;

use lent::{gorvask_try_axioms, gorvask_try_clauses};
use states::{Library, stored};

const LIBRARY: Library = Library {
    axioms: gorvask_try_axioms,
    clauses: gorvask_try_clauses,
};

fn main() -> Result<ExitCode, Box<dyn Error>> {
    let files: Vec<String> = std::env::args().skip(1).collect();
    samples::check(&files, |place, input| {
        stored::answer(&LIBRARY, place, input)
    })
}
