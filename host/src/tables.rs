//! The tables that are lent, and one call.

use crate::sizes::Sizes;
use crate::sys::{self, ATOM_BYTES, CLAUSE_BYTES, DEFERRAL_BYTES, NUMBERS_BYTES, SCRATCH_BYTES};
use crate::tried::Test;

/// The calls that read a deck or a session and write the five tables.
type Clausify = unsafe extern "C" fn(
    *const u8,
    usize,
    *mut u8,
    usize,
    *mut u8,
    usize,
    *mut u8,
    usize,
    *mut u8,
    usize,
    *mut u8,
    usize,
) -> u64;

/// The five tables of a call.
#[derive(Clone)]
pub(crate) struct Tables {
    clauses: Vec<u8>,
    atoms: Vec<u8>,
    deferrals: Vec<u8>,
    numbers: [u8; NUMBERS_BYTES],
    scratch: Vec<u8>,
}

impl Tables {
    pub fn new(sizes: Sizes) -> Self {
        Self {
            clauses: vec![0; CLAUSE_BYTES * sizes.clauses],
            atoms: vec![0; ATOM_BYTES * sizes.atoms],
            deferrals: vec![0; DEFERRAL_BYTES * sizes.deferrals],
            numbers: [0; NUMBERS_BYTES],
            scratch: vec![0; SCRATCH_BYTES],
        }
    }

    pub fn sizes(&self) -> Sizes {
        Sizes {
            clauses: self.clauses.len() / CLAUSE_BYTES,
            atoms: self.atoms.len() / ATOM_BYTES,
            deferrals: self.deferrals.len() / DEFERRAL_BYTES,
        }
    }

    /// The tables of clauses, atoms and deferrals.
    pub fn records(&self) -> [&[u8]; 3] {
        [&self.clauses, &self.atoms, &self.deferrals]
    }

    pub fn numbers(&self) -> &[u8; NUMBERS_BYTES] {
        &self.numbers
    }

    /// Makes each table at least so large. One that becomes larger keeps nothing.
    pub fn grow(&mut self, sizes: Sizes) {
        for (table, bytes) in self.with_bytes(sizes) {
            if bytes > table.len() {
                *table = vec![0; bytes];
            }
        }
    }

    /// Makes each table at most so large, and none larger. It keeps the records for which it has room.
    pub fn trim(&mut self, sizes: Sizes) {
        for (table, bytes) in self.with_bytes(sizes) {
            table.truncate(bytes);
            table.shrink_to_fit();
        }
    }

    /// Each table with the bytes that so many records take.
    fn with_bytes(&mut self, sizes: Sizes) -> [(&mut Vec<u8>, usize); 3] {
        [
            (&mut self.clauses, CLAUSE_BYTES * sizes.clauses),
            (&mut self.atoms, ATOM_BYTES * sizes.atoms),
            (&mut self.deferrals, DEFERRAL_BYTES * sizes.deferrals),
        ]
    }

    /// What a call could leave, as words.
    #[cfg(test)]
    pub fn fill(&mut self, clauses: &[u32], atoms: &[u32], deferrals: &[u32], numbers: [u32; 10]) {
        for (table, words) in [
            (&mut self.clauses[..], clauses),
            (&mut self.atoms, atoms),
            (&mut self.deferrals, deferrals),
            (&mut self.numbers, &numbers),
        ] {
            for (bytes, word) in table.chunks_exact_mut(4).zip(words) {
                bytes.copy_from_slice(&word.to_le_bytes());
            }
        }
    }

    /// Scratch, for calls that are lent no other table.
    pub fn scratch(&mut self) -> &mut [u8] {
        &mut self.scratch
    }

    /// One call with the tables as they are.
    pub fn call(&mut self, deck: &[u8]) -> u64 {
        self.call_by(sys::gorvask_clausify_with_stats, deck)
    }

    /// One taking of a session's clauses, likewise.
    pub fn call_take(&mut self, session: &[u8]) -> u64 {
        self.call_by(sys::gorvask_session_take, session)
    }

    fn call_by(&mut self, entry: Clausify, read: &[u8]) -> u64 {
        let Self {
            clauses,
            atoms,
            deferrals,
            numbers,
            scratch,
        } = self;
        // SAFETY: each pointer comes with its slice's length; the tables are borrowed as mutable, so that they overlap
        // neither one another nor what is read, and nothing else uses them.
        unsafe {
            entry(
                read.as_ptr(),
                read.len(),
                clauses.as_mut_ptr(),
                clauses.len(),
                atoms.as_mut_ptr(),
                atoms.len(),
                deferrals.as_mut_ptr(),
                deferrals.len(),
                numbers.as_mut_ptr(),
                numbers.len(),
                scratch.as_mut_ptr(),
                scratch.len(),
            )
        }
    }

    /// One call of a test with the tables as they are. The numbers are then those that the store begins with.
    pub fn call_test(
        &mut self,
        test: Test,
        (deck, state): (&[u8], &[u8]),
        store: &mut [u8],
    ) -> u64 {
        let entry = match test {
            Test::Axioms => sys::gorvask_try_axioms,
            Test::Clauses => sys::gorvask_try_clauses,
        };
        let Self {
            clauses,
            atoms,
            deferrals,
            numbers,
            scratch,
        } = self;
        // SAFETY: as above, the store among the tables; deck and state are only read, and may overlap each other.
        let reply = unsafe {
            entry(
                deck.as_ptr(),
                deck.len(),
                state.as_ptr(),
                state.len(),
                clauses.as_mut_ptr(),
                clauses.len(),
                atoms.as_mut_ptr(),
                atoms.len(),
                deferrals.as_mut_ptr(),
                deferrals.len(),
                store.as_mut_ptr(),
                store.len(),
                scratch.as_mut_ptr(),
                scratch.len(),
            )
        };
        numbers.copy_from_slice(&store[..NUMBERS_BYTES]);
        reply
    }
}

#[cfg(test)]
mod tests {
    use super::Tables;
    use crate::sizes::sizes;

    /// Tables of 3, 5 and 7 records whose bytes count up from 1.
    fn counted() -> Tables {
        let mut tables = Tables::new(sizes(3, 5, 7));
        for (table, _) in tables.with_bytes(sizes(0, 0, 0)) {
            for (byte, count) in table.iter_mut().zip(1..) {
                *byte = count;
            }
        }
        tables
    }

    #[test]
    fn trimming_keeps_what_there_is_room_for() {
        let whole = counted();
        for to in [sizes(2, 9, 8), sizes(4, 1, 7), sizes(3, 6, 0)] {
            let mut tables = counted();
            tables.trim(to);
            assert_eq!(tables.sizes(), to.at_most(sizes(3, 5, 7)));
            for (kept, all) in tables.records().into_iter().zip(whole.records()) {
                assert!(all.starts_with(kept));
            }
        }
    }

    #[test]
    fn growing_makes_no_table_smaller() {
        let mut tables = counted();
        tables.grow(sizes(4, 5, 6));
        assert_eq!(tables.sizes(), sizes(4, 5, 7));
        assert!(tables.records()[0].iter().all(|&byte| byte == 0));
        for (kept, all) in tables
            .records()
            .into_iter()
            .zip(counted().records())
            .skip(1)
        {
            assert_eq!(kept, all);
        }
    }
}
