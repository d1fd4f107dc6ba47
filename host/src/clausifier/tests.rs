//! Growth, with a stand-in for the library that counts its calls.

use super::Clausifier;
use crate::atom::Atom;
use crate::clauses::Clauses;
use crate::refusal::Refusal;
use crate::sizes::Sizes;
use crate::tables::Tables;

const NO_ROOM: u64 = (12 << 32) + 7;

const EIGHTFOLD: Sizes = Sizes {
    clauses: 8_192,
    atoms: 32_768,
    deferrals: 8_192,
};

/// A deck with a header, of so many bytes.
fn deck(bytes: usize) -> Vec<u8> {
    let mut text = format!("{:11}{:11}{:11}{:11}{:11}\n", 0, 1, 0, 0, 0);
    text.push_str(&" ".repeat(bytes.saturating_sub(text.len())));
    text.into_bytes()
}

fn sizes(clauses: usize, atoms: usize, deferrals: usize) -> Sizes {
    Sizes {
        clauses,
        atoms,
        deferrals,
    }
}

/// A library that asks for some room on its way, and whose answer has so many clauses and deferrals. Clause n has class n for
/// its one atom, and deferral n stands at line n + 1.
struct Library {
    asks: Sizes,
    clauses: u32,
    deferrals: u32,
    lent: Vec<Sizes>,
}

impl Library {
    fn new(asks: Sizes, clauses: u32, deferrals: u32) -> Self {
        Self {
            asks,
            clauses,
            deferrals,
            lent: Vec::new(),
        }
    }

    fn call(&mut self, tables: &mut Tables) -> u64 {
        self.lent.push(tables.sizes());
        if tables.sizes().at_least(self.asks) != tables.sizes() {
            return NO_ROOM;
        }
        let clause = |number: u32| [number, 0, 1];
        let atom = |number: u32| [1, 0, number + 1, 0, 0, 0];
        let deferral = |number: u32| [number + 1, 4];
        tables.fill(
            &(0..self.clauses).flat_map(clause).collect::<Vec<_>>(),
            &(0..self.clauses).flat_map(atom).collect::<Vec<_>>(),
            &(0..self.deferrals).flat_map(deferral).collect::<Vec<_>>(),
            [self.clauses, 0, 0, 0, 0, self.deferrals, 0, 0, 0, 0],
        );
        0
    }

    /// Whether every record is as it was written.
    fn wrote(&self, answer: &Clauses<'_>) -> bool {
        let atoms = answer.iter().flat_map(|clause| clause.head());
        let lines = answer.deferrals().map(|deferral| deferral.line);
        atoms.eq((0..self.clauses).map(|class| Atom::Class(class, 0)))
            && lines.eq((1..=self.deferrals).map(Some))
    }

    /// How many clauses the deck has, or its refusal.
    fn ask(&mut self, clausifier: &mut Clausifier, bytes: usize) -> Result<usize, Refusal> {
        self.lent.clear();
        let answer = clausifier.clausify_by(&deck(bytes), |tables, _| self.call(tables))?;
        assert!(self.wrote(&answer), "other records than the library's");
        Ok(answer.len())
    }
}

#[test]
fn one_call_where_there_is_room() {
    let mut clausifier = Clausifier::new();
    let mut library = Library::new(Sizes::FIRST, 1_024, 3);
    assert_eq!(library.ask(&mut clausifier, 100), Ok(1_024));
    assert_eq!(library.lent, [Sizes::FIRST]);
}

#[test]
fn a_long_deck_is_lent_more_at_once() {
    let mut clausifier = Clausifier::new();
    let mut library = Library::new(sizes(2_000, 7_000, 5), 1_500, 5);
    assert_eq!(library.ask(&mut clausifier, 50_000), Ok(1_500));
    assert_eq!(library.lent, [sizes(4_096, 16_384, 1_024)]);
    // Whoever says sizes gets them.
    let mut clausifier = Clausifier::with_sizes(sizes(2_000, 7_000, 5));
    assert_eq!(library.ask(&mut clausifier, 50_000), Ok(1_500));
    assert_eq!(library.lent, [sizes(2_000, 7_000, 5)]);
}

#[test]
fn a_second_call_has_eight_times_as_much_and_what_is_needed_is_kept() {
    let mut clausifier = Clausifier::new();
    let mut library = Library::new(sizes(5_000, 5_000, 9), 5_000, 9);
    assert_eq!(library.ask(&mut clausifier, 100), Ok(5_000));
    assert_eq!(library.lent, [Sizes::FIRST, EIGHTFOLD]);
    assert_eq!(clausifier.sizes(), sizes(8_192, 8_192, 1_024));
    assert_eq!(library.ask(&mut clausifier, 100), Ok(5_000));
    assert_eq!(library.lent.len(), 1);
}

#[test]
fn a_third_call_has_the_largest() {
    let mut clausifier = Clausifier::new();
    let mut library = Library::new(sizes(9_000, 9_000, 0), 9_000, 0);
    assert_eq!(library.ask(&mut clausifier, 100), Ok(9_000));
    assert_eq!(library.lent, [Sizes::FIRST, EIGHTFOLD, Sizes::LARGEST]);
    assert_eq!(clausifier.sizes(), sizes(16_384, 16_384, 1_024));
}

#[test]
fn uneven_tables_keep_the_answer() {
    // Rounded up the answer would take more than was lent last: 2,048 clauses of 1,600, 8,192 atoms of 4,800, and so on.
    let enough = 65_536;
    for (from, clauses, deferrals, kept) in [
        (sizes(200, 4_096, 0), 1_560, 0, sizes(1_600, 4_096, 0)),
        (sizes(enough, 600, 0), 4_500, 0, sizes(enough, 4_800, 0)),
        (sizes(10, 10, 200), 10, 1_560, sizes(10, 10, 1_600)),
        (
            sizes(200, 600, 200),
            1_560,
            1_560,
            sizes(1_600, 2_048, 1_600),
        ),
        (
            sizes(9_000, 33_000, 9_000),
            65_535,
            65_000,
            sizes(enough, enough, enough),
        ),
    ] {
        let mut clausifier = Clausifier::with_sizes(from);
        let takes = clauses as usize;
        let asks = sizes(takes, takes, deferrals as usize);
        let mut library = Library::new(asks, clauses, deferrals);
        assert_eq!(library.ask(&mut clausifier, 100), Ok(takes));
        assert_eq!((library.lent.len(), clausifier.sizes()), (2, kept));
        assert_eq!(library.ask(&mut clausifier, 100), Ok(takes));
        assert_eq!((library.lent.len(), clausifier.sizes()), (1, kept));
    }
}

#[test]
fn room_that_the_answer_does_not_show() {
    // The answer fits, the way to it does not: the same deck asks for further calls once and never again.
    let mut clausifier = Clausifier::new();
    let mut library = Library::new(sizes(0, 20_000, 0), 10, 0);
    assert_eq!(library.ask(&mut clausifier, 100), Ok(10));
    assert_eq!(clausifier.sizes(), EIGHTFOLD);
    assert_eq!(library.ask(&mut clausifier, 100), Ok(10));
    assert_eq!(library.lent, [EIGHTFOLD]);
}

#[test]
fn a_refusal_takes_three_calls_at_most_and_leaves_the_sizes() {
    let never = sizes(usize::MAX, 0, 0);
    let by_length = sizes(4_096, 16_384, 1_024);
    let more = sizes(32_768, 131_072, 8_192);
    for (bytes, lent) in [
        (100, vec![Sizes::FIRST, EIGHTFOLD, Sizes::LARGEST]),
        (60_000, vec![by_length, more, Sizes::LARGEST]),
    ] {
        let mut clausifier = Clausifier::new();
        let mut library = Library::new(never, 0, 0);
        let refusal = library.ask(&mut clausifier, bytes).expect_err("refused");
        assert_eq!((refusal.number(), refusal.line()), (12, Some(7)));
        assert_eq!(library.lent, lent);
        assert_eq!(clausifier.sizes(), Sizes::FIRST);
    }
    let mut clausifier = Clausifier::with_sizes(Sizes::LARGEST);
    let mut library = Library::new(never, 0, 0);
    assert!(library.ask(&mut clausifier, 100).is_err());
    assert_eq!(library.lent, [Sizes::LARGEST]);
}

#[test]
fn from_small_tables_a_refusal_takes_four_calls() {
    let small = sizes(1, 0, 30);
    let mut clausifier = Clausifier::with_sizes(small);
    let mut library = Library::new(sizes(usize::MAX, 0, 0), 0, 0);
    assert!(library.ask(&mut clausifier, 100).is_err());
    assert_eq!(
        library.lent,
        [small, Sizes::FIRST, EIGHTFOLD, Sizes::LARGEST]
    );
    assert_eq!(clausifier.sizes(), small);
}

#[test]
fn other_refusals_take_one_call() {
    for number in (1..12).chain(13..16) {
        let mut calls = 0;
        let refused = Clausifier::new()
            .clausify_by(&deck(60_000), |_, _| {
                calls += 1;
                (number << 32) + 3
            })
            .map(|clauses| clauses.len());
        assert_eq!(
            refused.map_err(|refusal| u64::from(refusal.number())),
            Err(number)
        );
        assert_eq!(calls, 1);
    }
}

#[test]
fn reserved_room_is_lent() {
    let mut clausifier = Clausifier::with_sizes(sizes(0, 0, 0));
    clausifier.reserve(sizes(10, 0, 0));
    clausifier.reserve(sizes(5, 20, usize::MAX));
    assert_eq!(clausifier.sizes(), sizes(10, 20, 65_536));
}
