//! Gorvask's side. Without the feature `gorvask` it is empty, and nothing calls it.

pub use side::{Lent, Ours, first};

/// Whether Gorvask is measured.
pub const MEASURED: bool = cfg!(feature = "gorvask");

/// Bytes of scratch.
pub const SCRATCH_BYTES: usize = 1_572_864;

/// Bytes of tables of so many records: clauses, atoms, deferrals.
pub fn table_bytes([clauses, atoms, deferrals]: [usize; 3]) -> usize {
    12 * clauses + 24 * atoms + 8 * deferrals
}

/// A clause's atoms as words, body and head.
pub type Words<'a> = (&'a [[u32; 6]], &'a [[u32; 6]]);

#[cfg(feature = "gorvask")]
mod side {
    use super::{SCRATCH_BYTES, Words, table_bytes};
    use gorvask::sys::{self, ATOM_BYTES, CLAUSE_BYTES, DEFERRAL_BYTES, NUMBERS_BYTES};
    use gorvask::{Atom, Atoms, Clausifier, Statistics};
    use states::Test;

    use crate::sessions::Asked;

    /// An entry of a session that reads a deck or a line.
    type OfText = unsafe extern "C" fn(*const u8, usize, *mut u8, usize, *mut u8, usize) -> u64;
    /// One that is told a number.
    type OfNumber = unsafe extern "C" fn(u32, *mut u8, usize, *mut u8, usize) -> u64;

    /// A clausifier whose tables have the sizes at which its growth ended for a deck; and tables to clear.
    pub struct Ours {
        clausifier: Clausifier,
        tables: Vec<u8>,
        scratch: Vec<u8>,
    }

    /// A new clausifier after its first call: its tables were made, and made larger as the deck needed it.
    ///
    /// # Panics
    /// If the deck is refused.
    pub fn first(deck: &[u8]) -> Clausifier {
        let mut clausifier = Clausifier::new();
        if let Err(refusal) = clausifier.clausify(deck) {
            panic!("Gorvask refuses a deck of the bench: {refusal}");
        }
        clausifier
    }

    impl Ours {
        /// # Panics
        /// If the deck is refused.
        pub fn new(deck: &[u8]) -> Self {
            let mut ours = Self {
                clausifier: first(deck),
                tables: Vec::new(),
                scratch: vec![0; SCRATCH_BYTES],
            };
            ours.tables = vec![0; table_bytes(ours.lent()) + NUMBERS_BYTES];
            assert_eq!(SCRATCH_BYTES, sys::SCRATCH_BYTES);
            assert_eq!(table_bytes(ours.lent()), ours.clausifier.sizes().bytes());
            ours
        }

        /// Records of the tables that are lent.
        pub fn lent(&self) -> [usize; 3] {
            let sizes = self.clausifier.sizes();
            [sizes.clauses, sizes.atoms, sizes.deferrals]
        }

        /// How many clauses a deck has that was accepted before.
        pub fn clausify(&mut self, deck: &[u8]) -> usize {
            self.clausifier
                .clausify(deck)
                .map_or(0, |clauses| clauses.len())
        }

        /// Whether these are the deck's clauses and statistics.
        pub fn has(&mut self, deck: &[u8], clauses: &[Words<'_>], stats: [u32; 8]) -> bool {
            let Ok(answer) = self.clausifier.clausify(deck) else {
                return false;
            };
            let same = |ours: Atoms<'_>, theirs: &[[u32; 6]]| {
                ours.map(Some)
                    .eq(theirs.iter().map(|&words| Atom::of_words(words)))
            };
            let mut pairs = answer.iter().zip(clauses);
            answer.statistics() == Statistics::of_words(stats)
                && answer.len() == clauses.len()
                && pairs
                    .all(|(ours, (body, head))| same(ours.body(), body) && same(ours.head(), head))
        }

        pub fn clear_tables(&mut self) {
            std::hint::black_box(&mut self.tables).fill(0);
        }

        pub fn clear_scratch(&mut self) {
            std::hint::black_box(&mut self.scratch).fill(0);
        }
    }

    /// Tables for the C interface: of the sizes at which a clausifier's growth ends for a deck, and the store that the wrapper
    /// lends beside them.
    pub struct Lent {
        clauses: Vec<u8>,
        atoms: Vec<u8>,
        deferrals: Vec<u8>,
        numbers: [u8; NUMBERS_BYTES],
        store: Vec<u8>,
        scratch: Vec<u8>,
    }

    impl Lent {
        /// A deck that is refused gets what a new clausifier lends.
        pub fn to(deck: &[u8]) -> Self {
            let mut clausifier = Clausifier::new();
            let _ = clausifier.clausify(deck);
            let sizes = clausifier.sizes();
            Self {
                clauses: vec![0; CLAUSE_BYTES * sizes.clauses],
                atoms: vec![0; ATOM_BYTES * sizes.atoms],
                deferrals: vec![0; DEFERRAL_BYTES * sizes.deferrals],
                numbers: [0; NUMBERS_BYTES],
                store: vec![0; 8 * (8_192 + sizes.atoms)],
                scratch: vec![0; SCRATCH_BYTES],
            }
        }

        /// Records of the tables.
        pub fn records(&self) -> [usize; 3] {
            [
                self.clauses.len() / CLAUSE_BYTES,
                self.atoms.len() / ATOM_BYTES,
                self.deferrals.len() / DEFERRAL_BYTES,
            ]
        }

        /// The first words of the store.
        pub fn stored(&self, words: usize) -> Vec<u32> {
            let (stored, _) = self.store.as_chunks();
            let stored = stored.iter().map(|&word| u32::from_le_bytes(word));
            stored.take(words).collect()
        }

        /// The reply to a deck.
        pub fn clausify(&mut self, deck: &[u8]) -> u64 {
            // SAFETY: each pointer comes with its slice's length, and the tables are borrowed as mutable.
            unsafe {
                sys::gorvask_clausify_with_stats(
                    deck.as_ptr(),
                    deck.len(),
                    self.clauses.as_mut_ptr(),
                    self.clauses.len(),
                    self.atoms.as_mut_ptr(),
                    self.atoms.len(),
                    self.deferrals.as_mut_ptr(),
                    self.deferrals.len(),
                    self.numbers.as_mut_ptr(),
                    self.numbers.len(),
                    self.scratch.as_mut_ptr(),
                    self.scratch.len(),
                )
            }
        }

        /// Clauses, atoms, deferrals and numbers.
        pub fn answer(&self) -> Vec<u8> {
            let records = [&self.clauses, &self.atoms, &self.deferrals].map(|table| &table[..]);
            [records.concat(), self.numbers.to_vec()].concat()
        }

        /// The reply to a session's call.
        pub fn ask(&mut self, asked: Asked<'_>, session: &mut [u8]) -> u64 {
            match asked {
                Asked::Start(deck) => self.of_text(sys::gorvask_session_start, deck, session),
                Asked::Add(line) => self.of_text(sys::gorvask_session_add, line, session),
                Asked::Strike(line) => self.of_number(sys::gorvask_session_strike, line, session),
                Asked::Options(options) => {
                    self.of_number(sys::gorvask_session_options, options, session)
                }
                Asked::Take => self.take(session),
            }
        }

        fn of_text(&mut self, entry: OfText, text: &[u8], session: &mut [u8]) -> u64 {
            // SAFETY: as above.
            unsafe {
                entry(
                    text.as_ptr(),
                    text.len(),
                    session.as_mut_ptr(),
                    session.len(),
                    self.scratch.as_mut_ptr(),
                    self.scratch.len(),
                )
            }
        }

        fn of_number(&mut self, entry: OfNumber, number: u32, session: &mut [u8]) -> u64 {
            // SAFETY: as above.
            unsafe {
                entry(
                    number,
                    session.as_mut_ptr(),
                    session.len(),
                    self.scratch.as_mut_ptr(),
                    self.scratch.len(),
                )
            }
        }

        fn take(&mut self, session: &[u8]) -> u64 {
            // SAFETY: as above.
            unsafe {
                sys::gorvask_session_take(
                    session.as_ptr(),
                    session.len(),
                    self.clauses.as_mut_ptr(),
                    self.clauses.len(),
                    self.atoms.as_mut_ptr(),
                    self.atoms.len(),
                    self.deferrals.as_mut_ptr(),
                    self.deferrals.len(),
                    self.numbers.as_mut_ptr(),
                    self.numbers.len(),
                    self.scratch.as_mut_ptr(),
                    self.scratch.len(),
                )
            }
        }

        /// The reply to a deck and a state.
        pub fn try_state(&mut self, test: Test, deck: &[u8], state: &[u8]) -> u64 {
            let entry = match test {
                Test::Axioms => sys::gorvask_try_axioms,
                Test::Clauses => sys::gorvask_try_clauses,
            };
            // SAFETY: as above.
            unsafe {
                entry(
                    deck.as_ptr(),
                    deck.len(),
                    state.as_ptr(),
                    state.len(),
                    self.clauses.as_mut_ptr(),
                    self.clauses.len(),
                    self.atoms.as_mut_ptr(),
                    self.atoms.len(),
                    self.deferrals.as_mut_ptr(),
                    self.deferrals.len(),
                    self.store.as_mut_ptr(),
                    self.store.len(),
                    self.scratch.as_mut_ptr(),
                    self.scratch.len(),
                )
            }
        }
    }
}

#[cfg(not(feature = "gorvask"))]
mod side {
    use super::Words;
    use states::Test;

    use crate::sessions::Asked;

    pub struct Ours;

    pub fn first(_: &[u8]) {}

    impl Ours {
        pub fn new(_: &[u8]) -> Self {
            Self
        }

        pub fn lent(&self) -> [usize; 3] {
            [0; 3]
        }

        pub fn clausify(&mut self, _: &[u8]) -> usize {
            0
        }

        pub fn has(&mut self, _: &[u8], _: &[Words<'_>], _: [u32; 8]) -> bool {
            true
        }

        pub fn clear_tables(&mut self) {}

        pub fn clear_scratch(&mut self) {}
    }

    pub struct Lent;

    impl Lent {
        pub fn to(_: &[u8]) -> Self {
            Self
        }

        pub fn records(&self) -> [usize; 3] {
            [0; 3]
        }

        pub fn stored(&self, _: usize) -> Vec<u32> {
            Vec::new()
        }

        pub fn clausify(&mut self, _: &[u8]) -> u64 {
            0
        }

        pub fn answer(&self) -> Vec<u8> {
            Vec::new()
        }

        pub fn ask(&mut self, _: Asked<'_>, _: &mut [u8]) -> u64 {
            0
        }

        pub fn try_state(&mut self, _: Test, _: &[u8], _: &[u8]) -> u64 {
            0
        }
    }
}
