//! The entries of the proved library, for a package that links it.

/// `clausify_with_stats` of the proved library: the deck, then clauses, atoms, deferrals, numbers and scratch, each a place
/// and its bytes. It answers 0, or a refusal's number × 2^32 + line.
pub type Clausify = unsafe extern "C" fn(
    deck: *const u8,
    deck_len: usize,
    clauses: *mut u8,
    clauses_len: usize,
    atoms: *mut u8,
    atoms_len: usize,
    deferrals: *mut u8,
    deferrals_len: usize,
    numbers: *mut u8,
    numbers_len: usize,
    scratch: *mut u8,
    scratch_len: usize,
) -> u64;

/// A test of a state by the proved library: the deck and the state, then clauses, atoms, deferrals, store and scratch, each a
/// place and its bytes. It answers 0 where the state holds, 1 where it breaks something, or a refusal's number × 2^32 + line.
pub type Try = unsafe extern "C" fn(
    deck: *const u8,
    deck_len: usize,
    state: *const u8,
    state_len: usize,
    clauses: *mut u8,
    clauses_len: usize,
    atoms: *mut u8,
    atoms_len: usize,
    deferrals: *mut u8,
    deferrals_len: usize,
    store: *mut u8,
    store_len: usize,
    scratch: *mut u8,
    scratch_len: usize,
) -> u64;

/// A session's start or an addition to it by the proved library: the deck or the line, then session and scratch, each a place and
/// its bytes. It answers 0, or a refusal's number × 2^32 + line.
pub type SessionText = unsafe extern "C" fn(
    text: *const u8,
    text_len: usize,
    session: *mut u8,
    session_len: usize,
    scratch: *mut u8,
    scratch_len: usize,
) -> u64;

/// A line struck of a session, or its options changed, by the proved library: the number, then as [`SessionText`].
pub type SessionNumber = unsafe extern "C" fn(
    number: u32,
    session: *mut u8,
    session_len: usize,
    scratch: *mut u8,
    scratch_len: usize,
) -> u64;

/// A session's clauses taken by the proved library: as [`Clausify`], with the session in the deck's place.
pub type SessionTake = Clausify;

unsafe extern "C" {
    /// See [`Clausify`].
    ///
    /// # Safety
    /// Each place is that of so many bytes, the six lie apart, and nobody else uses them during the call.
    pub fn gorvask_clausify_with_stats(
        deck: *const u8,
        deck_len: usize,
        clauses: *mut u8,
        clauses_len: usize,
        atoms: *mut u8,
        atoms_len: usize,
        deferrals: *mut u8,
        deferrals_len: usize,
        numbers: *mut u8,
        numbers_len: usize,
        scratch: *mut u8,
        scratch_len: usize,
    ) -> u64;

    /// See [`Try`]: the deck's axioms.
    ///
    /// # Safety
    /// Each place is that of so many bytes, the seven lie apart, and nobody else uses them during the call.
    pub fn gorvask_try_axioms(
        deck: *const u8,
        deck_len: usize,
        state: *const u8,
        state_len: usize,
        clauses: *mut u8,
        clauses_len: usize,
        atoms: *mut u8,
        atoms_len: usize,
        deferrals: *mut u8,
        deferrals_len: usize,
        store: *mut u8,
        store_len: usize,
        scratch: *mut u8,
        scratch_len: usize,
    ) -> u64;

    /// See [`Try`]: its clauses.
    ///
    /// # Safety
    /// As for the axioms.
    pub fn gorvask_try_clauses(
        deck: *const u8,
        deck_len: usize,
        state: *const u8,
        state_len: usize,
        clauses: *mut u8,
        clauses_len: usize,
        atoms: *mut u8,
        atoms_len: usize,
        deferrals: *mut u8,
        deferrals_len: usize,
        store: *mut u8,
        store_len: usize,
        scratch: *mut u8,
        scratch_len: usize,
    ) -> u64;

    /// See [`SessionText`]: a deck's session.
    ///
    /// # Safety
    /// Each place is that of so many bytes, the three lie apart, and nobody else uses them during the call.
    pub fn gorvask_session_start(
        deck: *const u8,
        deck_len: usize,
        session: *mut u8,
        session_len: usize,
        scratch: *mut u8,
        scratch_len: usize,
    ) -> u64;

    /// See [`SessionText`]: one axiom line more.
    ///
    /// # Safety
    /// As for the start.
    pub fn gorvask_session_add(
        line: *const u8,
        line_len: usize,
        session: *mut u8,
        session_len: usize,
        scratch: *mut u8,
        scratch_len: usize,
    ) -> u64;

    /// See [`SessionNumber`]: the axiom of a line less.
    ///
    /// # Safety
    /// Each place is that of so many bytes, the two lie apart, and nobody else uses them during the call.
    pub fn gorvask_session_strike(
        line: u32,
        session: *mut u8,
        session_len: usize,
        scratch: *mut u8,
        scratch_len: usize,
    ) -> u64;

    /// See [`SessionNumber`]: other options.
    ///
    /// # Safety
    /// As for a line that is struck.
    pub fn gorvask_session_options(
        options: u32,
        session: *mut u8,
        session_len: usize,
        scratch: *mut u8,
        scratch_len: usize,
    ) -> u64;

    /// See [`SessionTake`].
    ///
    /// # Safety
    /// Each place is that of so many bytes, the six lie apart, and nobody else uses them during the call.
    pub fn gorvask_session_take(
        session: *const u8,
        session_len: usize,
        clauses: *mut u8,
        clauses_len: usize,
        atoms: *mut u8,
        atoms_len: usize,
        deferrals: *mut u8,
        deferrals_len: usize,
        numbers: *mut u8,
        numbers_len: usize,
        scratch: *mut u8,
        scratch_len: usize,
    ) -> u64;
}
