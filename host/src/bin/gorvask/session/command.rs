//! A command of a session.

use std::ffi::{OsStr, OsString};
use std::os::unix::ffi::OsStrExt;

use crate::ended::Failure;

/// The most letters of a word or a line that are told.
const TOLD: usize = 60;

#[derive(Debug, PartialEq, Eq)]
pub enum Command {
    Start(OsString),
    /// The numbers of one axiom.
    Add(Vec<u32>),
    AddFile(OsString),
    Strike(u32),
    Options(u32),
    Take,
    Text,
    Axioms,
    Save(OsString),
    Help,
    Quit,
}

impl Command {
    /// The command on a line; none on one that is empty or begins with `#`.
    pub fn read(line: &[u8]) -> Result<Option<Self>, Failure> {
        let line = line.trim_ascii();
        if line.is_empty() || line.starts_with(b"#") {
            return Ok(None);
        }
        let end = line.iter().position(u8::is_ascii_whitespace);
        let (name, rest) = line.split_at(end.unwrap_or(line.len()));
        let rest = rest.trim_ascii();
        let command = match name {
            b"start" => Self::Start(file("start", rest)?),
            b"add" => Self::addition(rest)?,
            b"strike" => Self::Strike(one_number("strike LINE", rest)?),
            b"options" => Self::Options(one_number("options N", rest)?),
            b"save" => Self::Save(file("save", rest)?),
            _ => Self::alone(name, rest)?,
        };
        Ok(Some(command))
    }

    /// One with no word behind it.
    fn alone(name: &[u8], rest: &[u8]) -> Result<Self, Failure> {
        let command = match name {
            b"take" => Self::Take,
            b"text" => Self::Text,
            b"axioms" => Self::Axioms,
            b"help" => Self::Help,
            b"quit" => Self::Quit,
            _ => {
                let name = told(name);
                return Err(bad(format!(
                    "there is no command {name}; 'help' lists those there are"
                )));
            }
        };
        if rest.is_empty() {
            Ok(command)
        } else {
            Err(bad(format!("{} stands alone", told(name))))
        }
    }

    /// Numbers where the first word is one, and otherwise a file.
    fn addition(rest: &[u8]) -> Result<Self, Failure> {
        let mut words = words(rest).peekable();
        match words.peek() {
            None => Err(bad(
                "add takes the numbers of one axiom, or a file: add 21 0 1, or add FILE",
            )),
            Some(first) if is_number(first) => {
                Ok(Self::Add(words.map(number).collect::<Result<_, _>>()?))
            }
            Some(_) => Ok(Self::AddFile(file("add", rest)?)),
        }
    }
}

fn bad(words: impl Into<String>) -> Failure {
    Failure::Input(words.into())
}

fn words(text: &[u8]) -> impl Iterator<Item = &[u8]> {
    let words = text.split(u8::is_ascii_whitespace);
    words.filter(|word| !word.is_empty())
}

/// The rest of the line, in which a name may have spaces.
fn file(command: &str, rest: &[u8]) -> Result<OsString, Failure> {
    if rest.is_empty() {
        return Err(bad(format!("{command} takes a file: {command} FILE")));
    }
    Ok(OsStr::from_bytes(rest).to_owned())
}

fn one_number(form: &str, rest: &[u8]) -> Result<u32, Failure> {
    let mut words = words(rest);
    if let (Some(word), None) = (words.next(), words.next()) {
        return number(word);
    }
    let name = form.split(' ').next().unwrap_or(form);
    Err(bad(format!("{name} takes one number: {form}")))
}

fn is_number(word: &[u8]) -> bool {
    word.iter().all(u8::is_ascii_digit)
}

fn number(word: &[u8]) -> Result<u32, Failure> {
    if !is_number(word) {
        return Err(bad(format!("{} is no number", told(word))));
    }
    let value = std::str::from_utf8(word)
        .ok()
        .and_then(|word| word.parse().ok());
    value.ok_or_else(|| {
        bad(format!(
            "{} is larger than {}, the largest number",
            told(word),
            u32::MAX
        ))
    })
}

/// A word or a line for people, cut where it is long.
pub fn told(word: &[u8]) -> String {
    let word = String::from_utf8_lossy(word.trim_ascii());
    match word.char_indices().nth(TOLD) {
        Some((end, _)) => format!("{}..", &word[..end]),
        None => word.into_owned(),
    }
}

#[cfg(test)]
mod tests;
