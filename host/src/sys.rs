//! The C interface as `include/gorvask.h` declares it, and the sizes that go with it.

mod session;

pub use session::{
    gorvask_session_add, gorvask_session_options, gorvask_session_start, gorvask_session_strike,
    gorvask_session_take,
};

/// Bytes of a clause's record.
pub const CLAUSE_BYTES: usize = 12;
/// Bytes of an atom's record.
pub const ATOM_BYTES: usize = 24;
/// Bytes of a deferral's record.
pub const DEFERRAL_BYTES: usize = 8;
/// Bytes of the ten numbers.
pub const NUMBERS_BYTES: usize = 40;
/// The least that scratch has.
pub const SCRATCH_BYTES: usize = 1_572_864;
/// The least that the store of a test has.
pub const STORE_BYTES: usize = 65_536;
/// The bytes of a session: the length of the live deck, its text, and zeros.
pub const SESSION_BYTES: usize = 65_540;

#[cfg(any(gorvask_linked, not(test)))]
unsafe extern "C" {
    /// Clausifies a deck into lent tables. The reply is 0, or a refusal's number × 2^32 + line.
    ///
    /// # Safety
    /// Each pointer is followed by so many bytes, which may be read, and but for the deck's written; it may be null where
    /// these are none. The six do not overlap, and nothing else uses the tables during the call. The bytes may hold
    /// anything.
    // Where there is no library to link, the linker misses a name that says so.
    #[cfg_attr(
        not(gorvask_linked),
        link_name = "the_static_library_is_missing__run__host/library__or_set_GORVASK_STATICLIB"
    )]
    pub fn gorvask_clausify_with_stats(
        deck: *const u8,
        deck_len: usize,
        clauses: *mut u8,
        clauses_len: usize,
        atoms: *mut u8,
        atoms_len: usize,
        deferrals: *mut u8,
        deferrals_len: usize,
        numbers: *mut u8,
        numbers_len: usize,
        scratch: *mut u8,
        scratch_len: usize,
    ) -> u64;

    /// Tests the axioms of a deck in a state. The reply is 0 where all hold, 1 where one is broken, or a refusal's number ×
    /// 2^32 + line.
    ///
    /// # Safety
    /// As of [`gorvask_clausify_with_stats`], of deck and state and the five tables. Deck and state may overlap each other, as
    /// nothing writes to them.
    #[cfg_attr(
        not(gorvask_linked),
        link_name = "the_static_library_is_missing__run__host/library__or_set_GORVASK_STATICLIB__to_try_axioms"
    )]
    pub fn gorvask_try_axioms(
        deck: *const u8,
        deck_len: usize,
        state: *const u8,
        state_len: usize,
        clauses: *mut u8,
        clauses_len: usize,
        atoms: *mut u8,
        atoms_len: usize,
        deferrals: *mut u8,
        deferrals_len: usize,
        store: *mut u8,
        store_len: usize,
        scratch: *mut u8,
        scratch_len: usize,
    ) -> u64;

    /// Tests the clauses of a deck in a state, and replies likewise.
    ///
    /// # Safety
    /// As of [`gorvask_try_axioms`].
    #[cfg_attr(
        not(gorvask_linked),
        link_name = "the_static_library_is_missing__run__host/library__or_set_GORVASK_STATICLIB__to_try_clauses"
    )]
    pub fn gorvask_try_clauses(
        deck: *const u8,
        deck_len: usize,
        state: *const u8,
        state_len: usize,
        clauses: *mut u8,
        clauses_len: usize,
        atoms: *mut u8,
        atoms_len: usize,
        deferrals: *mut u8,
        deferrals_len: usize,
        store: *mut u8,
        store_len: usize,
        scratch: *mut u8,
        scratch_len: usize,
    ) -> u64;
}

#[cfg(all(test, not(gorvask_linked)))]
pub use tests::{
    gorvask_clausify_with_stats, gorvask_try as gorvask_try_axioms,
    gorvask_try as gorvask_try_clauses,
};

#[cfg(test)]
mod tests {
    /// In place of the library, so that the tests which do not call it can be linked without it.
    #[cfg(not(gorvask_linked))]
    #[expect(clippy::too_many_arguments, reason = "the interface has so many")]
    pub unsafe extern "C" fn gorvask_clausify_with_stats(
        _: *const u8,
        _: usize,
        _: *mut u8,
        _: usize,
        _: *mut u8,
        _: usize,
        _: *mut u8,
        _: usize,
        _: *mut u8,
        _: usize,
        _: *mut u8,
        _: usize,
    ) -> u64 {
        unreachable!("a test of the library target calls no library")
    }

    /// Likewise of either test of a state.
    #[cfg(not(gorvask_linked))]
    #[expect(clippy::too_many_arguments, reason = "the interface has so many")]
    pub unsafe extern "C" fn gorvask_try(
        _: *const u8,
        _: usize,
        _: *const u8,
        _: usize,
        _: *mut u8,
        _: usize,
        _: *mut u8,
        _: usize,
        _: *mut u8,
        _: usize,
        _: *mut u8,
        _: usize,
        _: *mut u8,
        _: usize,
    ) -> u64 {
        unreachable!("a test of the library target calls no library")
    }
}
