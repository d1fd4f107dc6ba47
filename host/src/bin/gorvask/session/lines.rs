//! The lines of standard input, asked for on a terminal.

use std::io::{self, BufRead, IsTerminal, Read, StdinLock, Write};

use crate::ended::{Failure, tell};

/// The most bytes of a line, far more than a command has.
const MOST: usize = 1 << 16;
/// What some editors put before a text in UTF-8.
const BYTE_ORDER_MARK: &[u8] = "\u{feff}".as_bytes();

pub struct Lines {
    input: StdinLock<'static>,
    is_terminal: bool,
    is_first: bool,
}

impl Lines {
    pub fn of_standard_input() -> Result<Self, Failure> {
        let input = io::stdin().lock();
        let is_terminal = input.is_terminal();
        if is_terminal {
            tell("reading commands from the terminal; 'help' lists them, Ctrl-D ends")?;
        }
        Ok(Self {
            input,
            is_terminal,
            is_first: true,
        })
    }

    /// The next line, of which the last one need not end with its line feed.
    pub fn read(&mut self) -> Result<Option<Vec<u8>>, Failure> {
        self.prompt("> ")?;
        let mut line = Vec::new();
        let mut some = (&mut self.input).take(MOST as u64 + 1);
        let read = some.read_until(b'\n', &mut line);
        read.map_err(|error| bad(format!("standard input cannot be read: {error}")))?;
        if line.is_empty() {
            self.prompt("\n")?;
            return Ok(None);
        }
        if line.len() > MOST {
            return Err(bad(format!(
                "a command has over {MOST} bytes; it and what follows are not read"
            )));
        }
        if std::mem::take(&mut self.is_first) && line.starts_with(BYTE_ORDER_MARK) {
            line.drain(..BYTE_ORDER_MARK.len());
        }
        Ok(Some(line))
    }

    /// Words for whoever sits at the terminal.
    fn prompt(&self, words: &str) -> io::Result<()> {
        if self.is_terminal {
            io::stderr().write_all(words.as_bytes())?;
        }
        Ok(())
    }
}

fn bad(words: String) -> Failure {
    Failure::Input(words)
}
