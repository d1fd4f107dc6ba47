//! The answer to an accepted deck, read from the clausifier's tables.

use std::fmt;
use std::iter::FusedIterator;
use std::slice::ChunksExact;

use crate::atom::{Atom, ClassId};
use crate::clause::Clause;
use crate::deferral::Deferral;
use crate::header::{ClassName, Header};
use crate::provisos::Provisos;
use crate::sizes::Sizes;
use crate::statistics::Statistics;
use crate::sys::{CLAUSE_BYTES, DEFERRAL_BYTES};
use crate::tables::Tables;
use crate::words;

/// The clauses of a deck with its deferrals and numbers. Records are read when they are asked for; nothing is copied.
#[derive(Clone, Copy)]
pub struct Clauses<'a> {
    /// The clauses' records that are in use; the whole atom table; the deferrals' records that are in use.
    records: &'a [u8],
    atoms: &'a [u8],
    deferrals: &'a [u8],
    /// The classes that the deck marks as data keys.
    keys: &'a [ClassId],
    statistics: Statistics,
    fresh_ids: u32,
    visits: u32,
    header: Header,
}

impl<'a> Clauses<'a> {
    /// What an accepted call left in the tables.
    pub(crate) fn new(header: Header, keys: &'a [ClassId], tables: &'a Tables) -> Self {
        let [statistics @ .., fresh_ids, visits] = words::of::<10>(tables.numbers());
        let statistics = Statistics::of_words(statistics);
        let [clauses, atoms, deferrals] = tables.records();
        Self {
            records: &clauses[..CLAUSE_BYTES * words::index(statistics.total)],
            atoms,
            deferrals: &deferrals[..DEFERRAL_BYTES * words::index(statistics.deferred)],
            keys,
            statistics,
            fresh_ids,
            visits,
            header,
        }
    }

    /// How many clauses there are.
    #[must_use]
    pub fn len(&self) -> usize {
        self.records.len() / CLAUSE_BYTES
    }

    /// Whether there is no clause.
    #[must_use]
    pub fn is_empty(&self) -> bool {
        self.records.is_empty()
    }

    /// Clause `index`, from 0.
    #[must_use]
    pub fn get(&self, index: usize) -> Option<Clause<'a>> {
        let record = self.records.chunks_exact(CLAUSE_BYTES).nth(index)?;
        Some(Clause::of(record, self.atoms, self.header))
    }

    /// The clauses, in the table's order.
    #[must_use]
    pub fn iter(&self) -> Iter<'a> {
        Iter {
            records: self.records.chunks_exact(CLAUSE_BYTES),
            atoms: self.atoms,
            header: self.header,
        }
    }

    /// What gave no clause, in the order in which it arose.
    ///
    /// # Panics
    /// Only with a library that is not the one that this wrapper is for.
    #[must_use]
    pub fn deferrals(&self) -> impl ExactSizeIterator<Item = Deferral> + use<'a> {
        self.deferrals
            .chunks_exact(DEFERRAL_BYTES)
            .map(|record| Deferral::of_words(words::of(record)).expect("a record of a deferral"))
    }

    /// Whether it is promised that no axiom of the kinds 21 to 31 is lost or weakened, and if not, why.
    #[must_use]
    pub fn provisos(&self) -> Provisos {
        let first = || self.iter().position(|clause| self.counts_fresh(clause));
        let is_asked = !self.header.has_equal_names();
        Provisos {
            deferrals: self.deferrals().collect(),
            data_keys: self.keys.to_vec(),
            fresh_at_most: is_asked.then(first).flatten(),
        }
    }

    /// Whether an at-most atom of the clause names a fresh class.
    fn counts_fresh(&self, clause: Clause<'_>) -> bool {
        let is_fresh = |class| matches!(self.class_name(class), ClassName::Fresh(_));
        let mut atoms = clause.body().chain(clause.head());
        atoms.any(|atom| matches!(atom, Atom::AtMost(..)) && atom.class().is_some_and(is_fresh))
    }

    /// The statistics.
    #[must_use]
    pub fn statistics(&self) -> Statistics {
        self.statistics
    }

    /// How many fresh class ids were taken.
    #[must_use]
    pub fn fresh_ids(&self) -> u32 {
        self.fresh_ids
    }

    /// How many visits were made; a deck may have 1,000,000.
    #[must_use]
    pub fn visits(&self) -> u32 {
        self.visits
    }

    /// The counts and options of the deck's first line.
    #[must_use]
    pub fn header(&self) -> Header {
        self.header
    }

    /// What a class id stands for.
    #[must_use]
    pub fn class_name(&self, class: ClassId) -> ClassName {
        self.header.class_name(class)
    }

    /// The records that the answer takes. On its way a run may have taken more.
    #[must_use]
    pub fn sizes(&self) -> Sizes {
        let atoms = |clause: Clause<'_>| clause.body().len() + clause.head().len();
        Sizes {
            clauses: self.len(),
            atoms: self.iter().map(atoms).sum(),
            deferrals: self.deferrals().len(),
        }
    }
}

impl<'a> IntoIterator for Clauses<'a> {
    type Item = Clause<'a>;
    type IntoIter = Iter<'a>;

    fn into_iter(self) -> Iter<'a> {
        self.iter()
    }
}

impl<'a> IntoIterator for &Clauses<'a> {
    type Item = Clause<'a>;
    type IntoIter = Iter<'a>;

    fn into_iter(self) -> Iter<'a> {
        self.iter()
    }
}

impl fmt::Debug for Clauses<'_> {
    fn fmt(&self, f: &mut fmt::Formatter<'_>) -> fmt::Result {
        f.debug_list().entries(self.iter()).finish()
    }
}

/// The clauses of a deck, one after the other.
#[derive(Clone, Debug)]
pub struct Iter<'a> {
    records: ChunksExact<'a, u8>,
    atoms: &'a [u8],
    header: Header,
}

impl<'a> Iterator for Iter<'a> {
    type Item = Clause<'a>;

    fn next(&mut self) -> Option<Clause<'a>> {
        let record = self.records.next()?;
        Some(Clause::of(record, self.atoms, self.header))
    }

    fn size_hint(&self) -> (usize, Option<usize>) {
        self.records.size_hint()
    }
}

impl ExactSizeIterator for Iter<'_> {}

impl FusedIterator for Iter<'_> {}
