//! The proved library on each run of the samples. The last line is 'N passed, M failed'.

use std::error::Error;
use std::process::ExitCode;

use session::{Library, stored};

fn main() -> Result<ExitCode, Box<dyn Error>> {
    let files: Vec<String> = std::env::args().skip(1).collect();
    samples::check(&files, |place, input| {
        stored::answer(&Library::PROVED, place, input)
    })
}
