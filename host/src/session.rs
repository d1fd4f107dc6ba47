//! A session: a deck whose axioms are added and struck one by one.

use crate::clauses::Clauses;
use crate::clausifier::Clausifier;
use crate::fields;
use crate::refusal::{Refusal, RefusalKind};
use crate::sizes::Sizes;
use crate::sys::{self, SESSION_BYTES};
use crate::words;

/// Bytes of the word in front of the text.
const LENGTH_BYTES: usize = 4;
/// The lowest and the highest kind of an axiom.
const AXIOMS: std::ops::RangeInclusive<u32> = 21..=36;

/// A session: a live deck, whose counts, key marks and concepts stay, and whose axioms and options are changed by calls. A
/// refused call leaves it as it was. It lends tables of its own, as a [`Clausifier`] does and as large.
///
/// ```
/// use gorvask::Session;
///
/// // A0 below A1, and the concepts of a further axiom
/// let deck = concat!(
///     "          0          2          0          0          3\n",
///     "          3          0\n",
///     "          3          1\n",
///     "         21          0          1\n",
/// );
/// let mut session = Session::start(deck.as_bytes())?;
/// session.add(b"         23          0          1\n")?;
/// assert_eq!(session.take()?.len(), 2);
/// session.strike(4)?;
/// // The other axiom has moved up to line 4.
/// assert!(session.axioms().eq([(4, vec![23, 0, 1])]));
/// assert_eq!(session.strike(3).expect_err("no axiom").number(), 15);
/// assert_eq!(session.take()?.len(), 1);
/// # Ok::<(), gorvask::Refusal>(())
/// ```
#[derive(Clone)]
pub struct Session {
    clausifier: Clausifier,
    /// The length of the live deck, its text, and zeros.
    bytes: Box<[u8]>,
}

impl Session {
    /// A session of a deck that passes the line checks.
    ///
    /// # Errors
    /// The refusal, 2 to 9, if the deck does not pass them.
    pub fn start(deck: &[u8]) -> Result<Self, Refusal> {
        let mut session = Self::of_bytes(vec![0; SESSION_BYTES]);
        let reply = session.call_reading(sys::gorvask_session_start, deck);
        Refusal::of_reply(reply).map_or(Ok(session), Err)
    }

    /// The session of bytes that were kept, [`Session::as_bytes`].
    ///
    /// # Errors
    /// Refusal 1, if they are not just a live deck that passes the line checks.
    ///
    /// # Panics
    /// Only with a library that is not the one that this wrapper is for.
    pub fn from_bytes(bytes: &[u8]) -> Result<Self, Refusal> {
        let mut session = Self::of_bytes(bytes.to_vec());
        // No axiom stands on line 0: a live session is refused by 15 and left as it was, and any other by 1.
        let refusal = session.strike(0).expect_err("a refusal of line 0");
        match refusal.kind() {
            RefusalKind::NotLive => Ok(session),
            _ => Err(refusal),
        }
    }

    fn of_bytes(bytes: Vec<u8>) -> Self {
        Self {
            clausifier: Clausifier::new(),
            bytes: bytes.into_boxed_slice(),
        }
    }

    /// What the C interface keeps of the session: the live deck's length as a word, its text, and zeros, 65,540 bytes in all.
    #[must_use]
    pub fn as_bytes(&self) -> &[u8] {
        &self.bytes
    }

    /// The live deck.
    ///
    /// # Panics
    /// Only with a library that is not the one that this wrapper is for.
    #[must_use]
    pub fn text(&self) -> &[u8] {
        text(&self.bytes)
    }

    /// The live axioms in their order: the line of each, from 1, and its numbers, the kind first.
    pub fn axioms(&self) -> impl Iterator<Item = (u32, Vec<u32>)> {
        let lines = (1..).zip(self.text().split_inclusive(|&byte| byte == b'\n'));
        lines.filter_map(|(line, text)| {
            let numbers: Vec<u32> = fields::of(text).map_while(|number| number).collect();
            let is_axiom = numbers.first().is_some_and(|kind| AXIOMS.contains(kind));
            is_axiom.then_some((line, numbers))
        })
    }

    /// Adds an axiom behind the others. The text is its line with the line feed, checked as the last line of the deck that
    /// comes of it.
    ///
    /// # Errors
    /// The refusal, 2 to 5; of 2 without a line the deck would be too long. [`crate::diagnosis::session`] tells more of the
    /// cause.
    pub fn add(&mut self, line: &[u8]) -> Result<(), Refusal> {
        done(self.call_reading(sys::gorvask_session_add, line))
    }

    /// Strikes the axiom on a line of the live deck, from 1, the header's. Lines behind it move up.
    ///
    /// # Errors
    /// Refusal 15, if no axiom stands there.
    pub fn strike(&mut self, line: u32) -> Result<(), Refusal> {
        done(self.call_with(sys::gorvask_session_strike, line))
    }

    /// Changes the options, checked as those of the live deck's header.
    ///
    /// # Errors
    /// Refusal 4, if they are past the limit.
    pub fn options(&mut self, options: u32) -> Result<(), Refusal> {
        done(self.call_with(sys::gorvask_session_options, options))
    }

    /// The clauses of the live deck: those that [`Clausifier::clausify`] makes of [`Session::text`], with tables that grow
    /// likewise.
    ///
    /// # Errors
    /// The refusal, 10 to 12, with the line of the live deck. The session goes on.
    ///
    /// # Panics
    /// Only with a library that is not the one that this wrapper is for.
    pub fn take(&mut self) -> Result<Clauses<'_>, Refusal> {
        let Self { clausifier, bytes } = self;
        clausifier.clausify_by(text(bytes), |tables, _| tables.call_take(bytes))
    }

    /// The records for which there is room.
    #[must_use]
    pub fn sizes(&self) -> Sizes {
        self.clausifier.sizes()
    }

    /// Makes room for at least so many records, as far as [`Sizes::LARGEST`] goes.
    pub fn reserve(&mut self, sizes: Sizes) {
        self.clausifier.reserve(sizes);
    }

    fn call_reading(&mut self, entry: Reading, read: &[u8]) -> u64 {
        let Self { clausifier, bytes } = self;
        let scratch = clausifier.scratch();
        // SAFETY: each pointer comes with its slice's length; session and scratch are borrowed as mutable, so that they overlap
        // neither each other nor what is read, and nothing else uses them.
        unsafe {
            entry(
                read.as_ptr(),
                read.len(),
                bytes.as_mut_ptr(),
                bytes.len(),
                scratch.as_mut_ptr(),
                scratch.len(),
            )
        }
    }

    fn call_with(&mut self, entry: With, number: u32) -> u64 {
        let Self { clausifier, bytes } = self;
        let scratch = clausifier.scratch();
        // SAFETY: as above; nothing is read beside them.
        unsafe {
            entry(
                number,
                bytes.as_mut_ptr(),
                bytes.len(),
                scratch.as_mut_ptr(),
                scratch.len(),
            )
        }
    }
}

/// A call that reads a deck or a line.
type Reading = unsafe extern "C" fn(*const u8, usize, *mut u8, usize, *mut u8, usize) -> u64;
/// A call that takes a number.
type With = unsafe extern "C" fn(u32, *mut u8, usize, *mut u8, usize) -> u64;

fn done(reply: u64) -> Result<(), Refusal> {
    Refusal::of_reply(reply).map_or(Ok(()), Err)
}

/// The text of a session's bytes.
fn text(bytes: &[u8]) -> &[u8] {
    let (length, rest) = bytes.split_at(LENGTH_BYTES);
    let [length] = words::of(length);
    &rest[..words::index(length)]
}

impl std::fmt::Debug for Session {
    fn fmt(&self, f: &mut std::fmt::Formatter<'_>) -> std::fmt::Result {
        f.debug_struct("Session")
            .field("bytes", &self.text().len())
            .field("sizes", &self.sizes())
            .finish_non_exhaustive()
    }
}
