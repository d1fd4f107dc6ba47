//! Reading files and standard input.

use std::ffi::OsStr;
use std::fs::File;
use std::io::{self, ErrorKind, IsTerminal, Read};

use crate::ended::{Failure, tell};

/// One byte more than a deck may have, so that a longer one is refused like the whole of it.
pub const MOST_OF_DECK: u64 = 65_537;
/// A state that is laid out well has under 871,000,000 bytes: of classes, roles and individuals it has at most 1,069,632, 1,024
/// and 4,096 lines, and behind an id at most 64 elements, 4,096 pairs and one element. So a longer one has its first bad line
/// before this too, and is refused like the whole of it.
const MOST_OF_STATE: u64 = 1 << 30;

/// A deck or a state: its bytes and what it is called.
pub struct Input {
    /// What it is.
    pub what: &'static str,
    pub name: String,
    pub bytes: Vec<u8>,
}

impl Input {
    /// The deck of a file, or of standard input.
    pub fn deck(path: Option<&OsStr>) -> Result<Self, Failure> {
        Self::read("deck", path, MOST_OF_DECK)
    }

    /// The state of a file, or of standard input.
    pub fn state(path: Option<&OsStr>) -> Result<Self, Failure> {
        Self::read("state", path, MOST_OF_STATE)
    }

    fn read(what: &'static str, path: Option<&OsStr>, most: u64) -> Result<Self, Failure> {
        match path {
            Some(path) => Ok(Self {
                what,
                name: path.to_string_lossy().into_owned(),
                bytes: read_file(path, what, most)?,
            }),
            None => Self::of_standard_input(what, most),
        }
    }

    fn of_standard_input(what: &'static str, most: u64) -> Result<Self, Failure> {
        if io::stdin().is_terminal() {
            tell(&format!(
                "reading a {what} from the terminal; Ctrl-D ends it, and --help says more"
            ))?;
        }
        let name = "standard input".to_owned();
        let bytes =
            read_some(io::stdin().lock(), most).map_err(|error| unreadable(&name, &error))?;
        Ok(Self { what, name, bytes })
    }

    /// A line, from 1, without its line feed.
    pub fn line(&self, number: u32) -> Option<&[u8]> {
        let place = usize::try_from(number).ok()?.checked_sub(1)?;
        let line = self
            .bytes
            .split_inclusive(|&byte| byte == b'\n')
            .nth(place)?;
        Some(line.strip_suffix(b"\n").unwrap_or(line))
    }
}

/// The bytes of a file, as far as so many.
pub fn read_file(path: &OsStr, what: &str, most: u64) -> Result<Vec<u8>, Failure> {
    let name = path.to_string_lossy();
    if path.is_empty() {
        return Err(Failure::Input(format!("the {what}'s name is empty")));
    }
    let bytes = File::open(path).and_then(|file| read_some(file, most));
    bytes.map_err(|error| match error.kind() {
        ErrorKind::NotFound => Failure::Input(format!("there is no file {name}")),
        ErrorKind::IsADirectory => Failure::Input(format!("{name} is a directory, and no {what}")),
        _ => unreadable(&name, &error),
    })
}

fn read_some(from: impl Read, most: u64) -> io::Result<Vec<u8>> {
    let mut bytes = Vec::new();
    from.take(most).read_to_end(&mut bytes)?;
    Ok(bytes)
}

fn unreadable(name: &str, error: &io::Error) -> Failure {
    Failure::Input(format!("{name} cannot be read: {error}"))
}

#[cfg(test)]
mod tests {
    use super::Input;

    #[test]
    fn lines_are_counted_from_one() {
        let deck = Input {
            what: "deck",
            name: String::new(),
            bytes: b"one\n\nthree".to_vec(),
        };
        let lines: Vec<_> = (0..5).map(|number| deck.line(number)).collect();
        assert_eq!(
            lines,
            [None, Some(&b"one"[..]), Some(b""), Some(b"three"), None]
        );
    }
}
