//! Runs the program on each deck of the samples and compares. The last line is 'N passed, M failed'.

use std::error::Error;
use std::path::Path;
use std::process::ExitCode;

use samples::{check, run};

fn main() -> Result<ExitCode, Box<dyn Error>> {
    let arguments: Vec<String> = std::env::args().skip(1).collect();
    let [program, files @ ..] = arguments.as_slice() else {
        return Err("samples PROGRAM SAMPLE..".into());
    };
    check(files, |_, deck| run(Path::new(program), deck))
}
