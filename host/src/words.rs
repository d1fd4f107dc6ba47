//! Words of four bytes, low byte first.

/// The words of a record.
///
/// # Panics
/// If it has not so many.
pub fn of<const N: usize>(record: &[u8]) -> [u32; N] {
    assert_eq!(record.len(), 4 * N, "a record of {N} words");
    std::array::from_fn(|index| {
        let at = 4 * index;
        u32::from_le_bytes([record[at], record[at + 1], record[at + 2], record[at + 3]])
    })
}

/// A word as an index.
pub fn index(word: u32) -> usize {
    usize::try_from(word).expect("a word fits in an index")
}

#[cfg(test)]
mod tests {
    use super::of;

    #[test]
    fn low_byte_first() {
        assert_eq!(
            of::<2>(&[1, 2, 3, 4, 255, 255, 255, 255]),
            [0x0403_0201, u32::MAX]
        );
    }
}
