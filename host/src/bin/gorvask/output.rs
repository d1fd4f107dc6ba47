//! Standard output.

use std::io::{self, BufWriter, Write};

/// Writes all of something, down to the last byte.
pub fn write(print: impl FnOnce(&mut dyn Write) -> io::Result<()>) -> io::Result<()> {
    let mut out = BufWriter::with_capacity(1 << 16, io::stdout().lock());
    print(&mut out)?;
    out.flush()
}
