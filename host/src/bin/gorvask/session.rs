//! `gorvask session`: a deck whose axioms are added and struck, by commands on standard input.

mod answers;
mod command;
mod lines;
mod live;
mod refused;

use crate::arguments::{Arguments, Files, Form};
use crate::ended::{Failure, Status, tell};
use crate::input::Input;
use crate::subcommand::Subcommand;
use answers::Answers;
use command::{Command, told};
use lines::Lines;
use live::Live;

const ROWS: &str = "--rows";

pub const SUBCOMMAND: Subcommand = Subcommand {
    name: "session",
    files: Files::DeckOrNone,
    options: &[Form {
        name: ROWS,
        value: None,
    }],
    run,
};

fn run(arguments: &Arguments) -> Result<Status, Failure> {
    let deck = arguments.deck().map(|file| Input::deck(Some(file)));
    let answers = Answers {
        is_rows: arguments.option(ROWS).is_some(),
    };
    let mut live = Live::new(answers);
    let mut status = match deck.transpose()? {
        Some(deck) => live.start(&deck)?,
        None => Status::Whole,
    };
    let mut lines = Lines::of_standard_input()?;
    while let Some(line) = lines.read()? {
        match Command::read(&line).transpose() {
            None => {}
            Some(Ok(Command::Quit)) => break,
            Some(command) => status = graver(status, obey(&mut live, command, &told(&line))?),
        }
    }
    Ok(status)
}

/// What a command asks for is done. Bad ones, and files that cannot be read, are told, and the session goes on.
fn obey(live: &mut Live, command: Result<Command, Failure>, name: &str) -> Result<Status, Failure> {
    match command.and_then(|command| live.obey(command, name)) {
        Err(Failure::Input(words)) => {
            live.answers.not_asked()?;
            tell(&words)?;
            Ok(Status::BadInput)
        }
        ended => ended,
    }
}

/// From the gravest on; one that all went well is behind them.
const GRAVE: [Status; 4] = [
    Status::Failed,
    Status::BadInput,
    Status::Refused,
    Status::NotWhole,
];

/// The status that tells more of what went wrong.
fn graver(first: Status, second: Status) -> Status {
    let is_one = |status: &Status| [first, second].contains(status);
    GRAVE.into_iter().find(is_one).unwrap_or(Status::Whole)
}

#[cfg(test)]
mod tests {
    use super::{GRAVE, Status, graver};

    #[test]
    fn the_gravest_status_stays() {
        let all = [&GRAVE[..], &[Status::Whole]].concat();
        for (place, first) in all.iter().enumerate() {
            for second in &all[place..] {
                assert_eq!(graver(*first, *second), *first);
                assert_eq!(graver(*second, *first), *first);
            }
        }
    }
}
