//! Calls of the proved library with the largest tables.

use std::array;

use lent::{
    ATOM, CLAUSE, DEFERRAL, SCRATCH, SESSION, SessionNumber, SessionText, Try,
    gorvask_clausify_with_stats, gorvask_session_add, gorvask_session_options,
    gorvask_session_start, gorvask_session_strike, gorvask_session_take, gorvask_try_axioms,
    gorvask_try_clauses,
};

use crate::paint::taken;

/// What calls are made on: a deck, and a state of it.
pub struct Input {
    pub deck: Vec<u8>,
    pub state: Vec<u8>,
}

impl Input {
    /// The deck's last line, with its number.
    fn last(&self) -> (u32, &[u8]) {
        let lines = self.deck.split_inclusive(|&byte| byte == b'\n');
        let last = (1..).zip(lines).last();
        last.expect("a deck has a header")
    }
}

/// The replies of the entries, in the header's order; those of a session are of one that starts from the deck, its last axiom
/// struck and added again, its options given again, and its clauses taken.
pub type Replies = [u64; ENTRIES];

const ENTRIES: usize = 8;
/// The place of a session's taking among them.
pub const TAKE: usize = 7;

/// The seven tables: clauses, atoms, deferrals, numbers, scratch, store, session.
pub struct Tables([Vec<u8>; 7]);

impl Default for Tables {
    fn default() -> Self {
        let lengths = [
            65_536 * CLAUSE,
            262_144 * ATOM,
            65_536 * DEFERRAL,
            40,
            SCRATCH,
            8 * (8_192 + 262_144),
            SESSION,
        ];
        Self(lengths.map(|length| vec![0; length]))
    }
}

impl Tables {
    /// The library's replies.
    pub fn replies(&mut self, input: &Input) -> Replies {
        array::from_fn(|entry| self.reply(entry, input))
    }

    /// The replies, and the most bytes of stack that one of the calls took; where it took `most` or more, `most`.
    pub fn measured(&mut self, input: &Input, most: usize) -> (Replies, usize) {
        let mut replies = [0; ENTRIES];
        let mut bytes = 0;
        for (entry, reply) in replies.iter_mut().enumerate() {
            bytes = bytes.max(taken(most, || *reply = self.reply(entry, input)));
        }
        (replies, bytes)
    }

    fn reply(&mut self, entry: usize, input: &Input) -> u64 {
        let (line, text) = input.last();
        match entry {
            0 => self.clausify(input),
            1 => self.tried(gorvask_try_axioms, input),
            2 => self.tried(gorvask_try_clauses, input),
            3 => self.of_text(gorvask_session_start, &input.deck),
            4 => self.of_number(gorvask_session_strike, line),
            5 => self.of_text(gorvask_session_add, text),
            6 => self.of_number(gorvask_session_options, options(&input.deck)),
            _ => self.take(),
        }
    }

    fn clausify(&mut self, input: &Input) -> u64 {
        let [clauses, atoms, deferrals, numbers, scratch, ..] = &mut self.0;
        // SAFETY: vectors of their own, each with its length.
        unsafe {
            gorvask_clausify_with_stats(
                input.deck.as_ptr(),
                input.deck.len(),
                clauses.as_mut_ptr(),
                clauses.len(),
                atoms.as_mut_ptr(),
                atoms.len(),
                deferrals.as_mut_ptr(),
                deferrals.len(),
                numbers.as_mut_ptr(),
                numbers.len(),
                scratch.as_mut_ptr(),
                scratch.len(),
            )
        }
    }

    fn of_text(&mut self, entry: SessionText, text: &[u8]) -> u64 {
        let [.., scratch, _, session] = &mut self.0;
        // SAFETY: as above.
        unsafe {
            entry(
                text.as_ptr(),
                text.len(),
                session.as_mut_ptr(),
                session.len(),
                scratch.as_mut_ptr(),
                scratch.len(),
            )
        }
    }

    fn of_number(&mut self, entry: SessionNumber, number: u32) -> u64 {
        let [.., scratch, _, session] = &mut self.0;
        // SAFETY: as above.
        unsafe {
            entry(
                number,
                session.as_mut_ptr(),
                session.len(),
                scratch.as_mut_ptr(),
                scratch.len(),
            )
        }
    }

    fn take(&mut self) -> u64 {
        let [clauses, atoms, deferrals, numbers, scratch, _, session] = &mut self.0;
        // SAFETY: as above.
        unsafe {
            gorvask_session_take(
                session.as_ptr(),
                session.len(),
                clauses.as_mut_ptr(),
                clauses.len(),
                atoms.as_mut_ptr(),
                atoms.len(),
                deferrals.as_mut_ptr(),
                deferrals.len(),
                numbers.as_mut_ptr(),
                numbers.len(),
                scratch.as_mut_ptr(),
                scratch.len(),
            )
        }
    }

    fn tried(&mut self, entry: Try, input: &Input) -> u64 {
        let [clauses, atoms, deferrals, _, scratch, store, _] = &mut self.0;
        // SAFETY: vectors of their own, each with its length.
        unsafe {
            entry(
                input.deck.as_ptr(),
                input.deck.len(),
                input.state.as_ptr(),
                input.state.len(),
                clauses.as_mut_ptr(),
                clauses.len(),
                atoms.as_mut_ptr(),
                atoms.len(),
                deferrals.as_mut_ptr(),
                deferrals.len(),
                store.as_mut_ptr(),
                store.len(),
                scratch.as_mut_ptr(),
                scratch.len(),
            )
        }
    }
}

/// A deck's options, the last number of its header.
fn options(deck: &[u8]) -> u32 {
    let digits = deck[44..55].iter().filter(|byte| byte.is_ascii_digit());
    digits.fold(0, |number, digit| 10 * number + u32::from(digit - b'0'))
}

/// A state of 64 elements in which every role relates each to itself and the next, and every individual is element 0.
pub fn state(individuals: u32, roles: u32) -> Vec<u8> {
    let mut rows = vec![vec![50, 64]];
    for role in 0..roles {
        let pairs = (0..64).flat_map(|x| [x, x, x, x + 1]).take(254);
        rows.push([52, role].into_iter().chain(pairs).collect());
    }
    rows.extend((0..individuals).map(|individual| vec![53, individual, 0]));
    let line =
        |row: &Vec<u32>| -> String { row.iter().map(|number| format!("{number:>11}")).collect() };
    rows.iter()
        .map(|row| line(row) + "\n")
        .collect::<String>()
        .into_bytes()
}
