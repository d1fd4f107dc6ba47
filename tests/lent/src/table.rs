//! A table somewhere in a larger buffer, with bytes on both sides that nobody else may write.

use std::sync::OnceLock;

use deck::random::Random;

/// The least bytes that are watched on each side.
const GUARD: usize = 64;

/// A buffer that a table is lent from, call after call. What is lent is dirty: it holds random bytes, and begins at any
/// place, whole words or not.
#[derive(Debug, Default)]
pub struct Lent {
    bytes: Vec<u8>,
    start: usize,
    len: usize,
    /// The bytes around the table, as they must stay.
    before: Vec<u8>,
    after: Vec<u8>,
}

impl Lent {
    /// Lends a dirty table of `len` bytes.
    pub fn lend(&mut self, rng: &mut Random, len: usize) {
        self.start = GUARD + rng.index(GUARD);
        self.len = len;
        let end = self.start + len;
        if self.bytes.len() < end + GUARD {
            self.bytes.resize(end + GUARD, 0);
        }
        soil(rng, &mut self.bytes[..end + GUARD]);
        self.before = self.bytes[..self.start].to_vec();
        self.after = self.bytes[end..end + GUARD].to_vec();
    }

    /// Lends a table with this content.
    pub fn lend_filled(&mut self, rng: &mut Random, content: &[u8]) {
        self.lend(rng, content.len());
        self.bytes_mut().copy_from_slice(content);
    }

    #[must_use]
    pub fn bytes(&self) -> &[u8] {
        &self.bytes[self.start..self.start + self.len]
    }

    pub fn bytes_mut(&mut self) -> &mut [u8] {
        &mut self.bytes[self.start..self.start + self.len]
    }

    #[must_use]
    pub fn len(&self) -> usize {
        self.len
    }

    #[must_use]
    pub fn is_empty(&self) -> bool {
        self.len == 0
    }

    /// Where the table begins. A library may write the whole buffer through it.
    pub fn pointer(&mut self) -> *mut u8 {
        // SAFETY: the start lies in the buffer.
        unsafe { self.bytes.as_mut_ptr().add(self.start) }
    }

    /// How this text, lent by that name, was changed, or a byte beside it.
    #[must_use]
    pub fn changed(&self, name: &str, text: &[u8]) -> Option<String> {
        if self.bytes() == text {
            self.beside(name)
        } else {
            Some(format!("{name} was changed"))
        }
    }

    /// Where a byte beside the table of that name was written, if one was.
    #[must_use]
    pub fn beside(&self, name: &str) -> Option<String> {
        let side = self.written_beside()?;
        Some(format!("a byte {side} {name} was written"))
    }

    /// On which side of the table a byte was written, if one was.
    #[must_use]
    pub fn written_beside(&self) -> Option<&'static str> {
        let end = self.start + self.len;
        if self.bytes[..self.start] != self.before {
            Some("before")
        } else if self.bytes[end..end + GUARD] != self.after {
            Some("after")
        } else {
            None
        }
    }
}

/// Random bytes to copy from, since drawing them takes longer.
static DIRT: OnceLock<Vec<u8>> = OnceLock::new();

const DIRT_LEN: usize = 1 << 20;

fn soil(rng: &mut Random, bytes: &mut [u8]) {
    let dirt = DIRT.get_or_init(|| {
        let mut rng = Random::new(0);
        (0..DIRT_LEN / 8)
            .flat_map(|_| rng.bits().to_le_bytes())
            .collect()
    });
    let mut rest = bytes;
    while !rest.is_empty() {
        let from = &dirt[rng.index(DIRT_LEN / 2)..];
        let (part, left) = rest.split_at_mut(rest.len().min(from.len()));
        part.copy_from_slice(&from[..part.len()]);
        rest = left;
    }
}
