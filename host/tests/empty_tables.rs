//! A deck or a table of 0 bytes may be lent as NULL: the same reply and the same bytes as with a place of its own.

mod common;

use std::ptr::{null, null_mut};

use common::worked;
use gorvask::sys::{NUMBERS_BYTES, SCRATCH_BYTES, gorvask_clausify_with_stats};

/// The place of some bytes, or NULL where there are none.
fn place(bytes: &mut [u8]) -> *mut u8 {
    if bytes.is_empty() {
        null_mut()
    } else {
        bytes.as_mut_ptr()
    }
}

/// Calls with empty clause, atom and deferral tables, all at NULL; the reply and whether all that was lent is zeros.
fn call(deck: &[u8], numbers: usize, scratch: usize) -> (u64, bool) {
    let mut numbers = vec![7; numbers];
    let mut scratch = vec![7; scratch];
    let deck_place = if deck.is_empty() {
        null()
    } else {
        deck.as_ptr()
    };
    // SAFETY: vectors of their own, each with its length; NULL where there are no bytes.
    let reply = unsafe {
        gorvask_clausify_with_stats(
            deck_place,
            deck.len(),
            null_mut(),
            0,
            null_mut(),
            0,
            null_mut(),
            0,
            place(&mut numbers),
            numbers.len(),
            place(&mut scratch),
            scratch.len(),
        )
    };
    (
        reply,
        [numbers, scratch].concat().iter().all(|&byte| byte == 0),
    )
}

const fn refusal(number: u64, line: u64) -> u64 {
    number << 32 | line
}

#[test]
fn a_deck_without_a_clause_is_accepted() {
    let deck = b"          0          0          0          0          3\n";
    assert_eq!(call(deck, NUMBERS_BYTES, SCRATCH_BYTES), (0, true));
}

#[test]
fn a_deck_with_a_clause_finds_no_room() {
    assert_eq!(
        call(&worked(), NUMBERS_BYTES, SCRATCH_BYTES),
        (refusal(12, 5), true)
    );
}

#[test]
fn an_empty_deck_is_refused_at_line_1() {
    assert_eq!(
        call(b"", NUMBERS_BYTES, SCRATCH_BYTES),
        (refusal(3, 1), true)
    );
}

#[test]
fn nothing_lent_is_a_wrong_size() {
    assert_eq!(call(&worked(), NUMBERS_BYTES, 0), (refusal(1, 0), true));
    assert_eq!(call(&worked(), 0, SCRATCH_BYTES), (refusal(1, 0), true));
    assert_eq!(call(b"", 0, 0), (refusal(1, 0), true));
}
