//! Numbers in a deck's columns.

/// Columns of a number.
const FIELD: usize = 11;

/// The numbers of an accepted deck's line, with or without its line feed; of other bytes, numbers or none.
pub(crate) fn of(line: &[u8]) -> impl Iterator<Item = Option<u32>> {
    line.chunks_exact(FIELD).map(|field| {
        let text = std::str::from_utf8(field).ok()?;
        text.trim_start_matches(' ').parse().ok()
    })
}

#[cfg(test)]
mod tests {
    use super::of;

    #[test]
    fn numbers_and_other_bytes() {
        let numbers = |line: &[u8]| of(line).collect::<Vec<_>>();
        assert_eq!(
            numbers(b"         21          0 4294967295\n"),
            [Some(21), Some(0), Some(u32::MAX)]
        );
        assert_eq!(numbers(b"          x 4294967296"), [None, None]);
        assert_eq!(numbers(b"1\n"), []);
    }
}
