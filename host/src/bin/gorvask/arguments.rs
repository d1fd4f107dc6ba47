//! What stands behind a subcommand.

use std::ffi::{OsStr, OsString};
use std::os::unix::ffi::OsStrExt;

use crate::ended::Failure;

/// An option that a subcommand knows.
pub struct Form {
    /// With its two hyphens.
    pub name: &'static str,
    /// What its value is called, if it takes one.
    pub value: Option<&'static str>,
}

/// The files that a subcommand reads.
#[derive(Clone, Copy, Debug, PartialEq, Eq)]
pub enum Files {
    /// A deck; without a name it is on standard input.
    Deck,
    /// A deck and a state, both of them named.
    DeckAndState,
    /// A deck or none; standard input has something else.
    DeckOrNone,
}

impl Files {
    /// What the file at a place is, and each one behind the last.
    fn at(self, place: usize) -> &'static str {
        match (self, place) {
            (Self::Deck | Self::DeckOrNone, _) | (_, 0) => "deck",
            (Self::DeckAndState, _) => "state",
        }
    }

    fn nameless(self, place: usize) -> String {
        let what = self.at(place);
        let input = match self {
            Self::Deck => "take - or nothing for standard input",
            Self::DeckAndState => "take - for standard input",
            Self::DeckOrNone => "leave it out",
        };
        format!("the {what}'s name is empty: name a file, or {input}")
    }

    /// Where these are as many as there can be, and this is one more.
    fn one_too_many(self, files: &[OsString], file: &OsStr) -> Option<String> {
        let file = file.to_string_lossy();
        match (self, files) {
            (Self::Deck | Self::DeckOrNone, [first]) => {
                let first = first.to_string_lossy();
                Some(format!(
                    "one deck at a time, and not both {first} and {file}"
                ))
            }
            (Self::DeckAndState, [_, _]) => Some(format!(
                "one deck and one state at a time, and not {file} too"
            )),
            _ => None,
        }
    }

    /// Where these are not all that are needed, or cannot be read side by side.
    fn amiss(self, files: &[OsString]) -> Option<&'static str> {
        match (self, files) {
            (Self::DeckAndState, [deck, state]) if deck == "-" && state == "-" => {
                Some("the deck and the state cannot both be on standard input")
            }
            (Self::DeckOrNone, [deck]) if deck == "-" => {
                Some("the deck cannot be on standard input, where the commands are")
            }
            (Self::Deck | Self::DeckOrNone, _) | (Self::DeckAndState, [_, _]) => None,
            (Self::DeckAndState, _) => {
                Some("a state is tried with its deck, and both are named: gorvask try DECK STATE")
            }
        }
    }
}

/// The files and the options.
#[derive(Debug, Default)]
pub struct Arguments {
    files: Vec<OsString>,
    options: Vec<(&'static str, OsString)>,
}

impl Arguments {
    /// The words behind a subcommand, options in any place. Behind `--` there are none.
    pub fn read(words: &[OsString], files: Files, forms: &[Form]) -> Result<Self, Failure> {
        let mut arguments = Self::default();
        let mut words = words.iter();
        let mut may_be_option = true;
        while let Some(word) = words.next() {
            let is_option =
                may_be_option && word != "-" && word.as_encoded_bytes().starts_with(b"-");
            if is_option && word == "--" {
                may_be_option = false;
            } else if is_option {
                let option = option(word, files, forms, || words.next().cloned())?;
                arguments.take_option(option)?;
            } else {
                arguments.take_file(word, files)?;
            }
        }
        match files.amiss(&arguments.files) {
            Some(words) => Err(Failure::Usage(words.to_owned())),
            None => Ok(arguments),
        }
    }

    /// The deck's file; none where it is on standard input.
    pub fn deck(&self) -> Option<&OsStr> {
        self.file(0)
    }

    /// The state's file; none where it is on standard input.
    pub fn state(&self) -> Option<&OsStr> {
        self.file(1)
    }

    fn file(&self, place: usize) -> Option<&OsStr> {
        let file = self.files.get(place)?;
        (file != "-").then_some(file)
    }

    /// The option's value, empty where it takes none; none where it is not given.
    pub fn option(&self, name: &str) -> Option<&OsStr> {
        let mut options = self.options.iter();
        let (_, value) = options.find(|(given, _)| *given == name)?;
        Some(value)
    }

    fn take_option(&mut self, option: (&'static str, OsString)) -> Result<(), Failure> {
        if self.option(option.0).is_some() {
            return Err(Failure::Usage(format!("{} is given twice", option.0)));
        }
        self.options.push(option);
        Ok(())
    }

    fn take_file(&mut self, file: &OsStr, files: Files) -> Result<(), Failure> {
        if file.is_empty() {
            return Err(Failure::Usage(files.nameless(self.files.len())));
        }
        if let Some(words) = files.one_too_many(&self.files, file) {
            return Err(Failure::Usage(words));
        }
        self.files.push(file.to_owned());
        Ok(())
    }
}

/// The option of a word, with the value from behind `=` or from the next word.
fn option(
    word: &OsStr,
    files: Files,
    forms: &[Form],
    next: impl FnOnce() -> Option<OsString>,
) -> Result<(&'static str, OsString), Failure> {
    let (name, value) = parted(word);
    let Some(form) = forms.iter().find(|form| form.name == name) else {
        return Err(unknown(&word.to_string_lossy(), files, forms));
    };
    let name = form.name;
    match (form.value, value) {
        (None, None) => Ok((name, OsString::new())),
        (None, Some(_)) => Err(Failure::Usage(format!("{name} takes no value"))),
        (Some(what), value) => match value.map(OsStr::to_owned).or_else(next) {
            Some(value) => Ok((name, value)),
            None => Err(Failure::Usage(format!("{name} takes a value: {what}"))),
        },
    }
}

/// What stands before the first `=`, and what behind it, which need not be a text.
fn parted(word: &OsStr) -> (&OsStr, Option<&OsStr>) {
    let mut parts = word.as_bytes().splitn(2, |&byte| byte == b'=');
    let name = parts.next().unwrap_or_default();
    (OsStr::from_bytes(name), parts.next().map(OsStr::from_bytes))
}

fn unknown(word: &str, files: Files, forms: &[Form]) -> Failure {
    let known: Vec<&str> = forms.iter().map(|form| form.name).collect();
    let known = match known[..] {
        [] => "none is known here".to_owned(),
        _ => format!("known here: {}", known.join(", ")),
    };
    let file = match files {
        Files::Deck | Files::DeckOrNone => "deck",
        Files::DeckAndState => "file",
    };
    Failure::Usage(format!(
        "there is no option {word} ({known}); a {file} of that name is given behind --"
    ))
}

#[cfg(test)]
mod tests;
