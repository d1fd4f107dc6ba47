//! The tests of a state, with tables that grow.

use crate::clauses::Clauses;
use crate::clausifier::Clausifier;
use crate::refusal::Refusal;
use crate::sizes::Sizes;
use crate::tables::Tables;
use crate::tried::{Test, Tried};

/// The verdict on a state, with the clauses of its deck. It borrows the tester's tables.
#[derive(Clone, Debug)]
pub struct Trial<'a> {
    /// The verdict.
    pub tried: Tried,
    /// What the deck gives, whichever was tested.
    pub clauses: Clauses<'a>,
}

/// Tests states of a layout against decks. It lends tables of its own, as a [`Clausifier`] does and as large, and beside them a
/// store in which the state is kept.
///
/// ```
/// use gorvask::{Test, Tester, Tried};
///
/// // A0 below A1, and a state of two elements in which A0 holds the second and A1 nothing
/// let deck = concat!(
///     "          0          2          0          0          3\n",
///     "          3          0\n",
///     "          3          1\n",
///     "         21          0          1\n",
/// );
/// let state = concat!(
///     "         50          2\n",
///     "         51          0          1\n",
/// );
/// let mut tester = Tester::new();
/// let trial = tester.try_state(Test::Axioms, deck.as_bytes(), state.as_bytes())?;
/// assert_eq!(trial.tried, Tried::Broken { number: 4, elements: vec![1] });
/// # Ok::<(), gorvask::Refusal>(())
/// ```
#[derive(Clone, Default)]
pub struct Tester {
    clausifier: Clausifier,
    store: Vec<u8>,
}

impl Tester {
    /// A tester that lends at first what a deck of its length usually finds enough.
    #[must_use]
    pub fn new() -> Self {
        Self::default()
    }

    /// A tester with tables of so many records, each at most [`Sizes::LARGEST`].
    #[must_use]
    pub fn with_sizes(sizes: Sizes) -> Self {
        Self {
            clausifier: Clausifier::with_sizes(sizes),
            store: Vec::new(),
        }
    }

    /// The records for which there is room.
    #[must_use]
    pub fn sizes(&self) -> Sizes {
        self.clausifier.sizes()
    }

    /// The verdict on a state of the layout. Where there is no room for the deck's clauses, the tables are made larger and
    /// all is done again, as [`Clausifier::clausify`] says. The store has eight bytes for each class and each individual that a
    /// deck may declare, and for each atom for which there is room: each fresh class stands in a head atom of its own, so that
    /// all have theirs. Where one had not, it would be looked up in the state's text, with the same verdict.
    ///
    /// # Errors
    /// The refusal, if the deck is refused (2 to 12), or the state (13), or a clause that is to be tested has over four
    /// variables (14).
    ///
    /// # Panics
    /// Only with a library that is not the one that this wrapper is for.
    pub fn try_state(
        &mut self,
        test: Test,
        deck: &[u8],
        state: &[u8],
    ) -> Result<Trial<'_>, Refusal> {
        self.try_by(deck, |tables, store| {
            tables.call_test(test, (deck, state), store)
        })
    }

    /// What is said at [`Tester::try_state`], with this for a call.
    fn try_by(
        &mut self,
        deck: &[u8],
        mut call: impl FnMut(&mut Tables, &mut [u8]) -> u64,
    ) -> Result<Trial<'_>, Refusal> {
        let Self { clausifier, store } = self;
        let mut tried = Tried::Holds;
        let clauses = clausifier.clausify_by(deck, |tables, _| {
            store.resize(store_bytes(tables.sizes()), 0);
            let reply = call(tables, store);
            match Tried::of_reply(reply, store) {
                Some(verdict) => {
                    tried = verdict;
                    0
                }
                None => reply,
            }
        })?;
        Ok(Trial { tried, clauses })
    }
}

impl std::fmt::Debug for Tester {
    fn fmt(&self, f: &mut std::fmt::Formatter<'_>) -> std::fmt::Result {
        f.debug_struct("Tester")
            .field("sizes", &self.sizes())
            .finish_non_exhaustive()
    }
}

/// Eight bytes for each of 4,096 classes and 4,096 individuals, and for each fresh class that the atoms have room for.
fn store_bytes(sizes: Sizes) -> usize {
    8 * (8_192 + sizes.atoms)
}

#[cfg(test)]
mod tests;
