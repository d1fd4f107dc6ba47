//! The tests of a state: the C interface byte by byte, refusals 1, 13 and 14, and the wrapper.

mod common;

use std::ptr::{null, null_mut};

use common::{deck, equivalent, refused, wide, with_fresh, with_fresh_state, worked};
use gorvask::sys::{
    SCRATCH_BYTES, STORE_BYTES, gorvask_clausify_with_stats, gorvask_try_axioms,
    gorvask_try_clauses,
};
use gorvask::{Refusal, RefusalKind, Sizes, Test, Tester, Tried};

const TESTS: [Test; 2] = [Test::Axioms, Test::Clauses];

/// Clauses, atoms, deferrals, store and scratch, with something in each byte.
struct Lent([Vec<u8>; 5]);

impl Lent {
    fn bytes(sizes: [usize; 5]) -> Self {
        Self(sizes.map(|length| (1..=255).cycle().take(length).collect()))
    }

    fn small() -> Self {
        Self::bytes([12 * 3, 24 * 8, 8 * 2, STORE_BYTES, SCRATCH_BYTES])
    }

    fn call(&mut self, test: Test, deck: &[u8], state: &[u8]) -> u64 {
        let entry = match test {
            Test::Axioms => gorvask_try_axioms,
            Test::Clauses => gorvask_try_clauses,
        };
        let [clauses, atoms, deferrals, store, scratch] = &mut self.0;
        // SAFETY: vectors of their own, each with its length.
        unsafe {
            entry(
                deck.as_ptr(),
                deck.len(),
                state.as_ptr(),
                state.len(),
                clauses.as_mut_ptr(),
                clauses.len(),
                atoms.as_mut_ptr(),
                atoms.len(),
                deferrals.as_mut_ptr(),
                deferrals.len(),
                store.as_mut_ptr(),
                store.len(),
                scratch.as_mut_ptr(),
                scratch.len(),
            )
        }
    }

    fn all_zeros(&self) -> bool {
        self.0.iter().flatten().all(|&byte| byte == 0)
    }
}

const fn refusal(number: u64, line: u64) -> u64 {
    number << 32 | line
}

fn words(words: &[u32]) -> Vec<u8> {
    words.iter().flat_map(|word| word.to_le_bytes()).collect()
}

/// The run's tables as `gorvask_clausify_with_stats` leaves them, with tables of the same sizes.
fn run(deck: &[u8]) -> ([Vec<u8>; 3], Vec<u8>) {
    let Lent([mut clauses, mut atoms, mut deferrals, _, mut scratch]) = Lent::small();
    let mut numbers = vec![7; 40];
    // SAFETY: as above.
    let reply = unsafe {
        gorvask_clausify_with_stats(
            deck.as_ptr(),
            deck.len(),
            clauses.as_mut_ptr(),
            clauses.len(),
            atoms.as_mut_ptr(),
            atoms.len(),
            deferrals.as_mut_ptr(),
            deferrals.len(),
            numbers.as_mut_ptr(),
            numbers.len(),
            scratch.as_mut_ptr(),
            scratch.len(),
        )
    };
    assert_eq!(reply, 0);
    ([clauses, atoms, deferrals], numbers)
}

#[test]
fn a_verdict_leaves_the_run_and_the_verdict() {
    let deck = with_fresh();
    let (tables, numbers) = run(&deck);
    for (test, fresh, reply, behind) in [
        (Test::Axioms, &[][..], 0, &[][..]),
        (Test::Clauses, &[vec![51, 3, 1]], 0, &[]),
        (Test::Clauses, &[], 1, &[2, 1, 0]),
    ] {
        let mut lent = Lent::small();
        assert_eq!(lent.call(test, &deck, &with_fresh_state(fresh)), reply);
        let [clauses, atoms, deferrals, store, scratch] = lent.0;
        assert_eq!([clauses, atoms, deferrals], tables);
        let mut wanted = [numbers.clone(), words(behind)].concat();
        wanted.resize(STORE_BYTES, 0);
        assert_eq!(store, wanted);
        assert!(scratch.iter().all(|&byte| byte == 0));
    }
}

#[test]
fn every_refusal_leaves_zeros() {
    let mut cases = vec![
        (with_fresh(), Vec::new(), refusal(13, 1), refusal(13, 1)),
        (
            with_fresh(),
            deck(&[vec![50, 2], vec![51, 4]]),
            refusal(13, 2),
            refusal(13, 2),
        ),
        (wide(), deck(&[vec![50, 1]]), 0, refusal(14, 0)),
        (wide(), deck(&[vec![50, 0]]), refusal(13, 1), refusal(13, 1)),
    ];
    for (number, line, deck) in refused() {
        let reply = refusal(number.into(), line.unwrap_or(0).into());
        cases.push((deck, Vec::new(), reply, reply));
    }
    for (deck, state, axioms, clauses) in cases {
        for (test, reply) in TESTS.into_iter().zip([axioms, clauses]) {
            // More records than the decks for 2 to 11 fill, so that 12 is the long body's.
            let mut lent =
                Lent::bytes([12 * 512, 24 * 65_536, 8 * 8, STORE_BYTES + 5, SCRATCH_BYTES]);
            assert_eq!(lent.call(test, &deck, &state), reply);
            assert!(reply == 0 || lent.all_zeros(), "{reply:x}");
        }
    }
}

#[test]
fn an_individual_without_its_line_is_line_0() {
    let asserted = deck(&[vec![0, 1, 2, 0, 3], vec![3, 0], vec![36, 0, 1]]);
    let state = deck(&[vec![50, 1], vec![53, 0, 0]]);
    for test in TESTS {
        assert_eq!(Lent::small().call(test, &asserted, &state), refusal(13, 0));
    }
}

#[test]
fn wrong_sizes_are_refusal_1() {
    let fine = [12 * 3, 24 * 8, 8 * 2, STORE_BYTES, SCRATCH_BYTES];
    for (table, bytes) in [
        (0, 12 * 3 + 1),
        (0, 12 * 65_537),
        (1, 24 * 8 + 23),
        (2, 8 * 2 + 4),
        (3, STORE_BYTES - 1),
        (3, 0),
        (4, SCRATCH_BYTES - 1),
    ] {
        let mut sizes = fine;
        sizes[table] = bytes;
        for test in TESTS {
            let mut lent = Lent::bytes(sizes);
            assert_eq!(lent.call(test, &worked(), b""), refusal(1, 0));
            assert!(lent.all_zeros());
        }
    }
}

/// Deck, state and tables of 0 bytes may be NULL.
#[test]
fn what_has_no_bytes_may_be_null() {
    let header = deck(&[vec![0, 0, 0, 0, 3]]);
    let state = deck(&[vec![50, 1]]);
    for (deck, state, reply) in [
        (&header[..], &state[..], 0),
        (&header, &[], refusal(13, 1)),
        (&[], &state, refusal(3, 1)),
        (&[], &[], refusal(3, 1)),
    ] {
        for entry in [gorvask_try_axioms, gorvask_try_clauses] {
            let [mut store, mut scratch] = [STORE_BYTES, SCRATCH_BYTES].map(|bytes| vec![7; bytes]);
            // SAFETY: vectors of their own, each with its length; NULL where there are no bytes.
            let got = unsafe {
                entry(
                    place(deck),
                    deck.len(),
                    place(state),
                    state.len(),
                    null_mut(),
                    0,
                    null_mut(),
                    0,
                    null_mut(),
                    0,
                    store.as_mut_ptr(),
                    store.len(),
                    scratch.as_mut_ptr(),
                    scratch.len(),
                )
            };
            assert_eq!(got, reply);
            assert!([store, scratch].concat().iter().all(|&byte| byte == 0));
        }
    }
}

/// The place of some bytes, or NULL where there are none.
fn place(bytes: &[u8]) -> *const u8 {
    if bytes.is_empty() {
        null()
    } else {
        bytes.as_ptr()
    }
}

fn broken(number: u32, elements: &[u32]) -> Tried {
    let elements = elements.to_vec();
    Tried::Broken { number, elements }
}

fn tried(tester: &mut Tester, test: Test, deck: &[u8], state: &[u8]) -> Result<Tried, RefusalKind> {
    let trial = tester.try_state(test, deck, state);
    trial.map(|trial| trial.tried).map_err(Refusal::kind)
}

/// So many equivalent classes, of which the last is empty: the tables grow on the way.
#[test]
fn tables_grow() {
    let deck_of_many = equivalent(100, 1);
    let mut rows = vec![vec![50, 64]];
    rows.extend((0..99).map(|class| vec![51, class, 7, 63]));
    let state = deck(&rows);
    let mut tester = Tester::with_sizes(Sizes {
        clauses: 1,
        atoms: 1,
        deferrals: 0,
    });
    let axioms = tried(&mut tester, Test::Axioms, &deck_of_many, &state);
    assert_eq!(axioms, Ok(broken(102, &[7])));
    let trial = tester
        .try_state(Test::Clauses, &deck_of_many, &state)
        .expect("a verdict");
    assert_eq!(trial.clauses.len(), 9_900);
    let Tried::Broken { number, elements } = trial.tried else {
        panic!("class 99 is empty");
    };
    assert_eq!(elements, [7]);
    let clause = trial.clauses.get(number as usize).expect("a clause");
    assert!(clause.to_string().ends_with(" → A99(x)"), "{clause}");
}

#[test]
fn a_used_tester_answers_like_a_new_one() {
    let cases = [
        (with_fresh(), with_fresh_state(&[])),
        (equivalent(60, 1), deck(&[vec![50, 3], vec![51, 0, 2]])),
        (with_fresh(), with_fresh_state(&[vec![51, 3, 1]])),
        (wide(), deck(&[vec![50, 1]])),
        (Vec::new(), Vec::new()),
        (worked(), Vec::new()),
    ];
    let mut used = Tester::new();
    for (deck, state) in cases.iter().chain(cases.iter().rev()) {
        for test in TESTS {
            let alone = tried(&mut Tester::new(), test, deck, state);
            assert_eq!(tried(&mut used, test, deck, state), alone);
        }
    }
}

/// 129 elements are shown of a chain of 128 parts: a path round and round.
#[test]
fn a_long_chain_shows_every_element() {
    let mut chain = vec![27, 2];
    chain.extend([0; 128]);
    let rows = [vec![0, 0, 0, 2, 3], chain];
    let state = deck(&[vec![50, 3], vec![52, 0, 0, 1, 1, 2, 2, 0]]);
    let axioms = tried(&mut Tester::new(), Test::Axioms, &deck(&rows), &state);
    let path: Vec<u32> = (0..129).map(|place| place % 3).collect();
    assert_eq!(axioms, Ok(broken(2, &path)));
}
