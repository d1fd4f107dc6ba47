//! The answers on standard output: in words, or each ending with a row 43 or 49.

use std::io::{self, Write};

use gorvask::Refusal;

use crate::output;
use crate::row::row;

/// An axiom's line and its numbers.
const AXIOM: u32 = 40;
/// The end of any answer but an accepted take's: number and line of the reply.
const REPLY: u32 = 49;

/// The form that the answers have.
#[derive(Clone, Copy)]
pub struct Answers {
    pub is_rows: bool,
}

impl Answers {
    /// What was asked for is done.
    pub fn done(self) -> io::Result<()> {
        output::write(|out| {
            if self.is_rows {
                row(out, [REPLY, 0, 0])
            } else {
                out.write_all(b"done\n")
            }
        })
    }

    pub fn refused(self, refusal: Refusal) -> io::Result<()> {
        let (number, line) = (refusal.number(), refusal.line().unwrap_or(0));
        output::write(|out| {
            if self.is_rows {
                row(out, [REPLY, number, line])
            } else {
                writeln!(out, "refused by number {number}, line {line}")
            }
        })
    }

    /// Nothing was asked of the session: 49 alone, and in words nothing.
    pub fn not_asked(self) -> io::Result<()> {
        output::write(|out| {
            if self.is_rows {
                row(out, [REPLY])
            } else {
                Ok(())
            }
        })
    }

    /// A text as it is, with the row of the end.
    pub fn text(self, text: &[u8]) -> io::Result<()> {
        output::write(|out| {
            out.write_all(text)?;
            self.end(out)
        })
    }

    /// Lines of axioms and their numbers, with the row of the end.
    pub fn axioms(self, axioms: impl Iterator<Item = (u32, Vec<u32>)>) -> io::Result<()> {
        output::write(|out| {
            for (line, numbers) in axioms {
                if self.is_rows {
                    row(out, [AXIOM, line].into_iter().chain(numbers))?;
                } else {
                    let numbers: Vec<String> = numbers.iter().map(u32::to_string).collect();
                    writeln!(out, "{line:5}  {}", numbers.join(" "))?;
                }
            }
            self.end(out)
        })
    }

    fn end(self, out: &mut dyn Write) -> io::Result<()> {
        if self.is_rows {
            row(out, [REPLY, 0, 0])
        } else {
            Ok(())
        }
    }
}
