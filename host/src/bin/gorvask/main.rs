//! The command `gorvask`; `help.txt` says what it does.

mod accepted;
mod arguments;
mod check;
mod ended;
mod input;
mod list;
mod names;
mod output;
mod refused;
mod row;
mod session;
mod subcommand;
mod summary;
mod text;
mod trial;
mod version;

use std::env;
use std::ffi::OsString;
use std::io::{self, Write};
use std::panic;
use std::process::ExitCode;

use ended::{Failure, Status};

const HELP: &str = include_str!("help.txt");

fn main() -> ExitCode {
    let words: Vec<OsString> = env::args_os().skip(1).collect();
    let ended = panic::catch_unwind(|| start(&words).unwrap_or_else(Failure::tell));
    ExitCode::from(ended.unwrap_or(Status::Failed) as u8)
}

fn start(words: &[OsString]) -> Result<Status, Failure> {
    let Some((first, rest)) = words.split_first() else {
        io::stderr().write_all(start_help().as_bytes())?;
        return Ok(Status::BadInput);
    };
    let mut options = words.iter().take_while(|word| *word != "--");
    if options.any(|word| word == "--help" || word == "-h") {
        return print(HELP);
    }
    match first.to_str() {
        Some("help") => print(HELP),
        Some("--version" | "-V") if rest.is_empty() => print(&version::text()),
        Some("--version" | "-V") => Err(Failure::Usage("--version stands alone".to_owned())),
        _ => subcommand::run(first, rest),
    }
}

fn print(text: &str) -> Result<Status, Failure> {
    output::write(|out| out.write_all(text.as_bytes()))?;
    Ok(Status::Whole)
}

/// The part of the help that is enough to start.
fn start_help() -> String {
    let start = HELP.split("\nOptions:").next().unwrap_or(HELP);
    format!("{start}\n'gorvask --help' says more.\n")
}
