//! One clause, read from the tables.

use std::collections::BTreeSet;
use std::fmt;
use std::iter::FusedIterator;
use std::slice::ChunksExact;

use crate::atom::{Atom, Var};
use crate::header::Header;
use crate::names::Names;
use crate::notation::{self, Naming, Written};
use crate::owned::OwnedClause;
use crate::sys::ATOM_BYTES;
use crate::words;

/// Where all of the body holds, one of the head holds. It borrows the tables; [`Clause::into_owned`] does not.
///
/// Clauses are equal where their atoms are, in their order.
#[derive(Clone, Copy)]
pub struct Clause<'a> {
    body: &'a [u8],
    head: &'a [u8],
    header: Header,
}

impl<'a> Clause<'a> {
    pub(crate) fn of(record: &[u8], atoms: &'a [u8], header: Header) -> Self {
        let [first, body, head] = words::of(record).map(|word| ATOM_BYTES * words::index(word));
        let (body, head) = atoms[first..first + body + head].split_at(body);
        Self { body, head, header }
    }

    /// The conditions; with none, the clause holds of everything.
    #[must_use]
    pub fn body(&self) -> Atoms<'a> {
        Atoms(self.body.chunks_exact(ATOM_BYTES))
    }

    /// The outcomes; with none, the conditions cannot all hold.
    #[must_use]
    pub fn head(&self) -> Atoms<'a> {
        Atoms(self.head.chunks_exact(ATOM_BYTES))
    }

    /// The variables that its atoms name, each once, rising: in their order a test shows elements.
    #[must_use]
    pub fn variables(&self) -> BTreeSet<Var> {
        let atoms = self.body().chain(self.head());
        atoms.flat_map(Atom::variables).collect()
    }

    /// The counts of the clause's deck.
    #[must_use]
    pub fn header(&self) -> Header {
        self.header
    }

    /// The clause by itself, for after the next call.
    #[must_use]
    pub fn into_owned(self) -> OwnedClause {
        OwnedClause::from(self)
    }

    /// The clause in logical notation with names, as far as there are any.
    #[must_use]
    pub fn with_names<'n>(self, names: &'n Names) -> impl fmt::Display + use<'a, 'n> {
        Written(move |f: &mut fmt::Formatter<'_>| self.write(f, Some(names)))
    }

    fn write(&self, f: &mut fmt::Formatter<'_>, names: Option<&Names>) -> fmt::Result {
        let header = Some(self.header);
        notation::clause(f, self.body(), self.head(), Naming { header, names })
    }
}

/// In logical notation, as `A3(x), r1(x,y1) → A2(y1) ∨ ∃r0.A5(x)`. Classes are `A0`, `A1`, .., individuals' classes `{i0}`, ..,
/// fresh ones `Q0`, ..; roles are `r0`, .., inverses `r0⁻`; variables are `x`, `y1`, `y2`, ... An empty body is `⊤`, an empty
/// head `⊥`.
impl fmt::Display for Clause<'_> {
    fn fmt(&self, f: &mut fmt::Formatter<'_>) -> fmt::Result {
        self.write(f, None)
    }
}

impl PartialEq for Clause<'_> {
    fn eq(&self, other: &Clause<'_>) -> bool {
        (self.body, self.head) == (other.body, other.head)
    }
}

impl Eq for Clause<'_> {}

impl fmt::Debug for Clause<'_> {
    fn fmt(&self, f: &mut fmt::Formatter<'_>) -> fmt::Result {
        let (body, head): (Vec<Atom>, Vec<Atom>) = (self.body().collect(), self.head().collect());
        f.debug_struct("Clause")
            .field("body", &body)
            .field("head", &head)
            .finish()
    }
}

/// The atoms of a body or head, one after the other.
///
/// It panics on a record that is no atom, which only a library that is not the one that this wrapper is for would leave.
#[derive(Clone, Debug)]
pub struct Atoms<'a>(ChunksExact<'a, u8>);

impl Iterator for Atoms<'_> {
    type Item = Atom;

    fn next(&mut self) -> Option<Atom> {
        let record = self.0.next()?;
        Some(Atom::of_words(words::of(record)).expect("a record of an atom"))
    }

    fn size_hint(&self) -> (usize, Option<usize>) {
        self.0.size_hint()
    }
}

impl ExactSizeIterator for Atoms<'_> {}

impl FusedIterator for Atoms<'_> {}
