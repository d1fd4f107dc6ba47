//! A program of crates/ that reads a deck, and stored samples of decks with the original's answers.

pub mod sample;

use std::error::Error;
use std::fs;
use std::io::{self, Write};
use std::path::Path;
use std::process::{Command, ExitCode, Stdio};

/// Runs each deck of the samples, given its place in its own, and compares. The last line that is printed is 'N passed, M failed'.
///
/// # Errors
/// If a file cannot be read or is no sample.
pub fn check(
    files: &[String],
    mut run: impl FnMut(u64, &[u8]) -> io::Result<Vec<u8>>,
) -> Result<ExitCode, Box<dyn Error>> {
    let mut cases = Vec::new();
    for file in files {
        cases.extend((0..).zip(sample::read(&fs::read_to_string(file)?)?));
    }
    let mut failed = 0;
    for (place, case) in &cases {
        let fault = match run(*place, &case.deck) {
            Ok(answer) if case.answer.is_of(&answer) => continue,
            Ok(_) => "another answer".into(),
            Err(error) => error.to_string(),
        };
        failed += 1;
        println!("failed: deck {}: {fault}", case.name);
    }
    println!("{} passed, {failed} failed", cases.len() - failed);
    let good = failed == 0 && !cases.is_empty();
    Ok(if good {
        ExitCode::SUCCESS
    } else {
        ExitCode::FAILURE
    })
}

/// What the program prints for a deck.
///
/// # Errors
/// If it cannot be run or does not end well.
pub fn run(program: &Path, deck: &[u8]) -> io::Result<Vec<u8>> {
    let mut child = Command::new(program)
        .stdin(Stdio::piped())
        .stdout(Stdio::piped())
        .spawn()?;
    if let Some(mut input) = child.stdin.take() {
        match input.write_all(deck) {
            // It reads no more of a deck than it needs to refuse it.
            Err(error) if error.kind() == io::ErrorKind::BrokenPipe => {}
            written => written?,
        }
    }
    let output = child.wait_with_output()?;
    if output.status.success() {
        return Ok(output.stdout);
    }
    Err(io::Error::other(format!(
        "{} ended with {}",
        program.display(),
        output.status
    )))
}
