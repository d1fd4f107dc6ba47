//! The calls of a session.

#[cfg(any(gorvask_linked, not(test)))]
unsafe extern "C" {
    /// Starts a session of a deck. The reply is 0 where it is done, and otherwise a refusal's number × 2^32 + line; the
    /// session is then zeros.
    ///
    /// # Safety
    /// Each pointer is followed by so many bytes, which may be read, and those of session and scratch written; it may be null
    /// where these are none. The three do not overlap, and nothing else uses session and scratch during the call. The bytes
    /// may hold anything.
    #[cfg_attr(
        not(gorvask_linked),
        link_name = "the_static_library_is_missing__run__host/library__or_set_GORVASK_STATICLIB__to_start_a_session"
    )]
    pub fn gorvask_session_start(
        deck: *const u8,
        deck_len: usize,
        session: *mut u8,
        session_len: usize,
        scratch: *mut u8,
        scratch_len: usize,
    ) -> u64;

    /// Adds an axiom's line to the live deck. The reply is 0 or a refusal's, after which the session is as it was.
    ///
    /// # Safety
    /// As of [`gorvask_session_start`].
    #[cfg_attr(
        not(gorvask_linked),
        link_name = "the_static_library_is_missing__run__host/library__or_set_GORVASK_STATICLIB__to_add_an_axiom"
    )]
    pub fn gorvask_session_add(
        line: *const u8,
        line_len: usize,
        session: *mut u8,
        session_len: usize,
        scratch: *mut u8,
        scratch_len: usize,
    ) -> u64;

    /// Strikes the axiom on a line of the live deck, and replies likewise.
    ///
    /// # Safety
    /// As of [`gorvask_session_start`].
    #[cfg_attr(
        not(gorvask_linked),
        link_name = "the_static_library_is_missing__run__host/library__or_set_GORVASK_STATICLIB__to_strike_an_axiom"
    )]
    pub fn gorvask_session_strike(
        line: u32,
        session: *mut u8,
        session_len: usize,
        scratch: *mut u8,
        scratch_len: usize,
    ) -> u64;

    /// Changes the live deck's options, and replies likewise.
    ///
    /// # Safety
    /// As of [`gorvask_session_start`].
    #[cfg_attr(
        not(gorvask_linked),
        link_name = "the_static_library_is_missing__run__host/library__or_set_GORVASK_STATICLIB__to_change_the_options"
    )]
    pub fn gorvask_session_options(
        options: u32,
        session: *mut u8,
        session_len: usize,
        scratch: *mut u8,
        scratch_len: usize,
    ) -> u64;

    /// Clausifies the live deck into lent tables, with the reply that
    /// [`gorvask_clausify_with_stats`](super::gorvask_clausify_with_stats) has of that deck.
    ///
    /// # Safety
    /// As of [`gorvask_clausify_with_stats`](super::gorvask_clausify_with_stats), with the session in place of the deck.
    #[cfg_attr(
        not(gorvask_linked),
        link_name = "the_static_library_is_missing__run__host/library__or_set_GORVASK_STATICLIB__to_take_the_clauses"
    )]
    pub fn gorvask_session_take(
        session: *const u8,
        session_len: usize,
        clauses: *mut u8,
        clauses_len: usize,
        atoms: *mut u8,
        atoms_len: usize,
        deferrals: *mut u8,
        deferrals_len: usize,
        numbers: *mut u8,
        numbers_len: usize,
        scratch: *mut u8,
        scratch_len: usize,
    ) -> u64;
}

#[cfg(all(test, not(gorvask_linked)))]
pub use super::gorvask_clausify_with_stats as gorvask_session_take;
#[cfg(all(test, not(gorvask_linked)))]
pub use tests::{
    gorvask_session_change as gorvask_session_strike,
    gorvask_session_change as gorvask_session_options,
    gorvask_session_read as gorvask_session_start, gorvask_session_read as gorvask_session_add,
};

/// In place of the library, as in [`super::tests`].
#[cfg(all(test, not(gorvask_linked)))]
mod tests {
    pub unsafe extern "C" fn gorvask_session_read(
        _: *const u8,
        _: usize,
        _: *mut u8,
        _: usize,
        _: *mut u8,
        _: usize,
    ) -> u64 {
        unreachable!("a test of the library target calls no library")
    }

    pub unsafe extern "C" fn gorvask_session_change(
        _: u32,
        _: *mut u8,
        _: usize,
        _: *mut u8,
        _: usize,
    ) -> u64 {
        unreachable!("a test of the library target calls no library")
    }
}
