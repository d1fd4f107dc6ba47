//! Rows of numbers, for programs.

use std::io::{self, Write};

/// Numbers in 11 columns each.
pub fn row(out: &mut dyn Write, numbers: impl IntoIterator<Item = u32>) -> io::Result<()> {
    for number in numbers {
        write!(out, "{number:11}")?;
    }
    out.write_all(b"\n")
}
