//! The proved library on each deck of the samples. The last line is 'N passed, M failed'.

use std::error::Error;
use std::process::ExitCode;

use entry::stored;
use lent::gorvask_clausify_with_stats;

fn main() -> Result<ExitCode, Box<dyn Error>> {
    let files: Vec<String> = std::env::args().skip(1).collect();
    samples::check(&files, |place, input| {
        stored::answer(gorvask_clausify_with_stats, place, input)
    })
}
