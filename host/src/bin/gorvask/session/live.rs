//! The session that is live, and what commands do with it.

use std::ffi::OsStr;
use std::fs;
use std::io::{self, Write};

use gorvask::{Refusal, Session};

use super::answers::Answers;
use super::command::Command;
use super::refused;
use crate::ended::{Failure, Status, tell};
use crate::input::{Input, MOST_OF_DECK, read_file};
use crate::list;
use crate::refused::{Lent, explain};
use crate::row::row;

const HELP: &str = include_str!("help.txt");

pub struct Live {
    /// None before the first start, and after one that is refused.
    session: Option<Session>,
    pub answers: Answers,
}

impl Live {
    pub fn new(answers: Answers) -> Self {
        Self {
            session: None,
            answers,
        }
    }

    /// What a command asks for, but to quit. The name is what it is called where something is said of it.
    pub fn obey(&mut self, command: Command, name: &str) -> Result<Status, Failure> {
        match command {
            Command::Start(file) => self.start(&Input::deck(Some(&file))?),
            Command::Add(numbers) => self.add(name, &laid_out(numbers)?),
            Command::AddFile(file) => self.add(name, &read_file(&file, "axiom", MOST_OF_DECK)?),
            Command::Strike(line) => self.change(
                name,
                |session| session.strike(line),
                |live, refusal| refused::strike(name, live, line, refusal),
            ),
            Command::Options(options) => self.change(
                name,
                |session| session.options(options),
                |live, refusal| refused::options(name, live, options, refusal),
            ),
            Command::Take => self.with(name, |session, _| take(name, session)),
            Command::Text => self.with(name, |session, answers| {
                answers.text(session.text())?;
                Ok(Status::Whole)
            }),
            Command::Axioms => self.with(name, |session, answers| {
                answers.axioms(session.axioms())?;
                Ok(Status::Whole)
            }),
            Command::Save(file) => {
                self.with(name, |session, answers| save(session, answers, &file))
            }
            Command::Help | Command::Quit => help(self.answers),
        }
    }

    /// Puts a session of the deck in the place of the one before; none where the deck is refused.
    pub fn start(&mut self, deck: &Input) -> Result<Status, Failure> {
        let started = Session::start(&deck.bytes);
        let refusal = started.as_ref().err().copied();
        self.session = started.ok();
        match refusal {
            None => done(self.answers),
            Some(refusal) => {
                self.answers.refused(refusal)?;
                explain(deck, refusal, Lent::Largest)
            }
        }
    }

    fn add(&mut self, name: &str, text: &[u8]) -> Result<Status, Failure> {
        self.change(
            name,
            |session| session.add(text),
            |live, refusal| refused::add(name, live, text, refusal),
        )
    }

    /// Asks something of the live session; where there is none, that is refused as the library would refuse it.
    fn with(
        &mut self,
        name: &str,
        ask: impl FnOnce(&mut Session, Answers) -> Result<Status, Failure>,
    ) -> Result<Status, Failure> {
        match &mut self.session {
            Some(session) => ask(session, self.answers),
            None => refused::none(name, self.answers),
        }
    }

    /// A change, and what is said of the live deck where it is refused.
    fn change(
        &mut self,
        name: &str,
        change: impl FnOnce(&mut Session) -> Result<(), Refusal>,
        explain: impl FnOnce(&[u8], Refusal) -> Result<(), Failure>,
    ) -> Result<Status, Failure> {
        self.with(name, |session, answers| match change(session) {
            Ok(()) => done(answers),
            Err(refusal) => {
                answers.refused(refusal)?;
                explain(session.text(), refusal)?;
                Ok(Status::Refused)
            }
        })
    }
}

fn done(answers: Answers) -> Result<Status, Failure> {
    answers.done()?;
    Ok(Status::Whole)
}

/// As `gorvask list` of the live deck.
fn take(name: &str, session: &mut Session) -> Result<Status, Failure> {
    let deck = Input {
        what: "deck",
        name: name.to_owned(),
        bytes: session.text().to_vec(),
    };
    list::answer(&deck, session.take(), Lent::Largest)
}

/// A file that cannot be written is told, and the session goes on.
fn save(session: &Session, answers: Answers, file: &OsStr) -> Result<Status, Failure> {
    match fs::write(file, session.text()) {
        Ok(()) => done(answers),
        Err(error) => {
            answers.not_asked()?;
            let file = file.to_string_lossy();
            tell(&format!("{file} cannot be written: {error}"))?;
            Ok(Status::Failed)
        }
    }
}

/// Where the answers are rows, the words go to standard error.
fn help(answers: Answers) -> Result<Status, Failure> {
    if answers.is_rows {
        io::stderr().write_all(HELP.as_bytes())?;
        answers.done()?;
    } else {
        answers.text(HELP.as_bytes())?;
    }
    Ok(Status::Whole)
}

/// The line of an axiom's numbers.
fn laid_out(numbers: Vec<u32>) -> Result<Vec<u8>, Failure> {
    let mut line = Vec::new();
    row(&mut line, numbers)?;
    Ok(line)
}
