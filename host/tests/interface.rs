//! The C interface itself: every byte that is lent, and refusal 1.

mod common;

use common::{refused, worked};
use gorvask::sys::{NUMBERS_BYTES, SCRATCH_BYTES, gorvask_clausify_with_stats};

/// Tables with something in each byte.
struct Lent {
    clauses: Vec<u8>,
    atoms: Vec<u8>,
    deferrals: Vec<u8>,
    numbers: Vec<u8>,
    scratch: Vec<u8>,
}

impl Lent {
    fn bytes([clauses, atoms, deferrals, numbers, scratch]: [usize; 5]) -> Self {
        let dirty = |length: usize| (1..=255).cycle().take(length).collect();
        Self {
            clauses: dirty(clauses),
            atoms: dirty(atoms),
            deferrals: dirty(deferrals),
            numbers: dirty(numbers),
            scratch: dirty(scratch),
        }
    }

    fn small() -> Self {
        Self::bytes([12 * 3, 24 * 4, 8 * 2, NUMBERS_BYTES, SCRATCH_BYTES])
    }

    fn call(&mut self, deck: &[u8]) -> (u64, u64) {
        // SAFETY: vectors of their own, each with its length.
        let reply = unsafe {
            gorvask_clausify_with_stats(
                deck.as_ptr(),
                deck.len(),
                self.clauses.as_mut_ptr(),
                self.clauses.len(),
                self.atoms.as_mut_ptr(),
                self.atoms.len(),
                self.deferrals.as_mut_ptr(),
                self.deferrals.len(),
                self.numbers.as_mut_ptr(),
                self.numbers.len(),
                self.scratch.as_mut_ptr(),
                self.scratch.len(),
            )
        };
        (reply >> 32, reply & 0xffff_ffff)
    }

    fn tables(&self) -> [&[u8]; 5] {
        [
            &self.clauses,
            &self.atoms,
            &self.deferrals,
            &self.numbers,
            &self.scratch,
        ]
    }

    fn all_zeros(&self) -> bool {
        self.tables().concat().iter().all(|&byte| byte == 0)
    }
}

fn words(words: &[u32]) -> Vec<u8> {
    words.iter().flat_map(|word| word.to_le_bytes()).collect()
}

#[test]
fn acceptance_leaves_records_then_zeros() {
    let mut lent = Lent::small();
    assert_eq!(lent.call(&worked()), (0, 0));
    let padded = |mut front: Vec<u8>, length: usize| {
        front.resize(length, 0);
        front
    };
    let atoms = [1, 0, 1, 0, 0, 0, 3, 0, 2, 0, 0, 0];
    assert_eq!(lent.clauses, padded(words(&[0, 1, 1]), 36));
    assert_eq!(lent.atoms, padded(words(&atoms), 96));
    assert_eq!(lent.deferrals, [0; 16]);
    assert_eq!(lent.numbers, words(&[1, 1, 0, 0, 1, 0, 0, 0, 0, 6]));
    assert!(lent.scratch.iter().all(|&byte| byte == 0));
}

#[test]
fn every_refusal_leaves_zeros() {
    for (number, line, deck) in refused() {
        // More records than the decks for 2 to 11 fill, so that 12 is the long body's.
        let mut lent = Lent::bytes([12 * 512, 24 * 65_536, 8 * 8, NUMBERS_BYTES, SCRATCH_BYTES]);
        let (got, at) = lent.call(&deck);
        assert_eq!((got, at), (u64::from(number), u64::from(line.unwrap_or(0))));
        assert!(lent.all_zeros(), "refusal {number}");
    }
}

#[test]
fn wrong_sizes_are_refusal_1() {
    // Bytes of the five tables that are fine, but for one.
    let fine = [12 * 3, 24 * 4, 8 * 2, NUMBERS_BYTES, SCRATCH_BYTES];
    for (table, bytes) in [
        (0, 12 * 3 + 1),
        (0, 12 * 65_537),
        (1, 24 * 4 + 23),
        (1, 24 * 262_145),
        (2, 8 * 2 + 4),
        (2, 8 * 65_537),
        (3, NUMBERS_BYTES - 4),
        (3, NUMBERS_BYTES + 4),
        (3, 0),
        (4, SCRATCH_BYTES - 1),
        (4, 0),
    ] {
        let mut sizes = fine;
        sizes[table] = bytes;
        let mut lent = Lent::bytes(sizes);
        assert_eq!(lent.call(&worked()), (1, 0));
        assert!(lent.all_zeros());
        // The sizes come before the deck.
        assert_eq!(lent.call(b"no deck"), (1, 0));
    }
}

#[test]
fn more_scratch_is_cleared_too() {
    let mut lent = Lent::small();
    lent.scratch = vec![7; SCRATCH_BYTES + 13];
    assert_eq!(lent.call(&worked()), (0, 0));
    assert!(lent.scratch.iter().all(|&byte| byte == 0));
}

#[test]
fn tables_of_no_record_are_lent() {
    let mut lent = Lent::bytes([0, 0, 0, NUMBERS_BYTES, SCRATCH_BYTES]);
    assert_eq!(lent.call(&worked()), (12, 5));
    let header = common::deck(&[vec![0, 0, 0, 0, 0]]);
    assert_eq!(lent.call(&header), (0, 0));
}

#[test]
fn the_content_that_is_lent_does_not_matter() {
    let mut first = Lent::small();
    let mut second = Lent::small();
    second.scratch.fill(255);
    second.clauses.fill(255);
    second.atoms.fill(0);
    for deck in [worked(), Vec::new(), worked()] {
        assert_eq!(first.call(&deck), second.call(&deck));
        assert_eq!(first.tables(), second.tables());
    }
}
