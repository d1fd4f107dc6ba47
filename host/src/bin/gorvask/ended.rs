//! How a run ends.

use std::io::{self, Write};

/// The exit status.
#[derive(Clone, Copy, Debug, PartialEq, Eq)]
#[repr(u8)]
pub enum Status {
    /// Accepted, and promised whole; or all that was tested holds; or what a session was asked for is done; or help or version
    /// printed.
    Whole = 0,
    /// A write failed, or the command itself.
    Failed = 1,
    /// Bad usage, or something that cannot be read.
    BadInput = 2,
    /// Accepted, but not promised whole.
    NotWhole = 3,
    /// The deck, the state or what a session was asked for is refused.
    Refused = 4,
    /// The state breaks something that was tested.
    Broken = 5,
}

/// What keeps a run from its answer.
#[derive(Debug)]
pub enum Failure {
    /// The arguments are wrong.
    Usage(String),
    /// A file cannot be read, or has no names; or a session's command is none.
    Input(String),
    /// An output cannot be written.
    Write(io::Error),
}

impl Failure {
    /// Says what it is. Where that cannot be written either, the status remains.
    pub fn tell(self) -> Status {
        match self {
            Self::Usage(words) => {
                let _ = tell(&words);
                let _ = tell("'gorvask --help' says how it is used");
                Status::BadInput
            }
            Self::Input(words) => {
                let _ = tell(&words);
                Status::BadInput
            }
            Self::Write(error) => {
                // Whoever closes a pipe has read enough.
                if error.kind() != io::ErrorKind::BrokenPipe {
                    let _ = tell(&format!("the output cannot be written: {error}"));
                }
                Status::Failed
            }
        }
    }
}

impl From<io::Error> for Failure {
    fn from(error: io::Error) -> Self {
        Self::Write(error)
    }
}

/// A line on standard error.
pub fn tell(words: &str) -> io::Result<()> {
    io::stderr().write_all(format!("gorvask: {words}\n").as_bytes())
}
