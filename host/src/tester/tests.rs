//! Growth of tables and store, with a stand-in for the library.

use super::{Tester, store_bytes};
use crate::atom::Atom;
use crate::sizes::{Sizes, sizes};
use crate::tables::Tables;
use crate::tried::Tried;

const DECK: &[u8] = b"          0          1          0          0          0\n";
const NO_ROOM: u64 = (12 << 32) + 7;

/// A run of one clause, A0 of everything, and the verdict that clause 0 is broken by elements 5 and 6.
fn broken(tables: &mut Tables, store: &mut [u8]) -> u64 {
    tables.fill(
        &[0, 0, 1],
        &[1, 0, 1, 0, 0, 0],
        &[],
        [1, 1, 0, 0, 0, 0, 0, 0, 0, 0],
    );
    for (bytes, word) in store[40..].chunks_exact_mut(4).zip([0u32, 2, 5, 6]) {
        bytes.copy_from_slice(&word.to_le_bytes());
    }
    1
}

#[test]
fn the_verdict_comes_with_the_clauses() {
    let mut tester = Tester::new();
    let trial = tester.try_by(DECK, broken).expect("a verdict");
    let elements = vec![5, 6];
    let number = 0;
    assert_eq!(trial.tried, Tried::Broken { number, elements });
    let clause = trial.clauses.get(0).expect("a clause");
    assert!(clause.head().eq([Atom::Class(0, 0)]));
    let trial = tester.try_by(DECK, |tables, store| broken(tables, store) - 1);
    assert_eq!(trial.expect("a verdict").tried, Tried::Holds);
}

#[test]
fn the_store_grows_with_the_atoms() {
    let mut lent = Vec::new();
    let mut tester = Tester::new();
    let trial = tester.try_by(DECK, |tables, store| {
        lent.push((tables.sizes().atoms, store.len()));
        match lent.len() {
            3 => broken(tables, store),
            _ => NO_ROOM,
        }
    });
    assert!(matches!(
        trial.expect("a verdict").tried,
        Tried::Broken { number: 0, .. }
    ));
    assert_eq!(
        lent,
        [(4_096, 98_304), (32_768, 327_680), (262_144, 2_162_688)]
    );
    assert_eq!(store_bytes(sizes(0, 0, 0)), 65_536);
}

#[test]
fn a_refusal_leaves_the_sizes_and_takes_one_call() {
    for (number, line) in [(1, 0), (3, 1), (13, 0), (13, 9), (14, 0)] {
        let mut tester = Tester::with_sizes(sizes(5, 6, 7));
        let mut calls = 0;
        let refused = tester.try_by(DECK, |_, _| {
            calls += 1;
            (number << 32) + line
        });
        let refusal = refused.expect_err("refused");
        assert_eq!(
            (
                u64::from(refusal.number()),
                refusal.line().map_or(0, u64::from)
            ),
            (number, line)
        );
        assert_eq!((calls, tester.sizes()), (1, sizes(5, 6, 7)));
    }
    let mut tester = Tester::new();
    let refused = tester.try_by(DECK, |_, _| NO_ROOM).map(|_| ());
    assert_eq!(refused.expect_err("refused").number(), 12);
    assert_eq!(tester.sizes(), Sizes::FIRST);
}
