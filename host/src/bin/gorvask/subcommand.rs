//! The subcommands.

use std::ffi::{OsStr, OsString};
use std::path::Path;

use crate::arguments::{Arguments, Files, Form};
use crate::ended::{Failure, Status};
use crate::{check, list, session, text, trial};

/// One of the things that the command does with a deck.
pub struct Subcommand {
    pub name: &'static str,
    pub files: Files,
    /// The options that it knows.
    pub options: &'static [Form],
    pub run: fn(&Arguments) -> Result<Status, Failure>,
}

/// All of them; `help.txt` has a line for each.
pub const ALL: &[Subcommand] = &[
    list::SUBCOMMAND,
    text::SUBCOMMAND,
    check::SUBCOMMAND,
    trial::SUBCOMMAND,
    session::SUBCOMMAND,
];

/// Runs the subcommand of that name.
pub fn run(name: &OsStr, words: &[OsString]) -> Result<Status, Failure> {
    match ALL.iter().find(|subcommand| subcommand.name == name) {
        Some(Subcommand {
            files,
            options,
            run,
            ..
        }) => run(&Arguments::read(words, *files, options)?),
        None => Err(Failure::Usage(unknown(name))),
    }
}

fn unknown(name: &OsStr) -> String {
    let names: Vec<&str> = ALL.iter().map(|subcommand| subcommand.name).collect();
    let names = names.join(", ");
    if name.is_empty() {
        return format!("the subcommand's name is empty; there are {names}");
    }
    let name = name.to_string_lossy();
    if name == "--unproved" {
        return "--unproved is known to the script gorvask at the repository's root, and stands first".to_owned();
    }
    if Path::new(&*name).exists() {
        return format!(
            "{name} is no subcommand; to list a deck of that name: gorvask list {name}"
        );
    }
    format!("there is no subcommand {name}; there are {names}")
}

#[cfg(test)]
mod tests {
    use super::ALL;
    use crate::HELP;

    #[test]
    fn the_help_has_each_subcommand_and_option() {
        for subcommand in ALL {
            let name = subcommand.name;
            assert!(HELP.contains(&format!("\n  gorvask {name} ")), "{name}");
            for option in subcommand.options {
                let line = match option.value {
                    Some(value) => format!("\n  {name} {} {value} ", option.name),
                    None => format!("\n  {name} {} ", option.name),
                };
                assert!(HELP.contains(&line), "{line}");
            }
        }
    }

    #[test]
    fn the_help_is_as_wide_as_a_terminal() {
        assert!(HELP.lines().all(|line| line.chars().count() <= 80));
    }
}
