//! Writes the files of the program `replay`.

use std::error::Error;
use std::fs;
use std::path::Path;

use oracle::replay::{cases, files};

fn main() -> Result<(), Box<dyn Error>> {
    let [input, output] = files(&cases());
    let folder = Path::new(env!("CARGO_MANIFEST_DIR")).join("../../crates/replay");
    fs::write(folder.join("stdin"), input)?;
    fs::write(folder.join("stdout"), output)?;
    Ok(())
}
