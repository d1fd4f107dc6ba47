//! A clause that outlives the call.

use std::fmt;
use std::hash::{Hash, Hasher};

use crate::atom::Atom;
use crate::clause::Clause;
use crate::header::Header;
use crate::names::Names;
use crate::notation::{self, Naming, Written};

/// A clause with atoms of its own: where all of the body holds, one of the head holds.
///
/// Clauses are equal where their atoms are, in their order.
#[derive(Clone)]
pub struct OwnedClause {
    /// The body's, then the head's.
    atoms: Box<[Atom]>,
    body: usize,
    header: Header,
}

impl OwnedClause {
    /// The conditions; with none, the clause holds of everything.
    #[must_use]
    pub fn body(&self) -> &[Atom] {
        &self.atoms[..self.body]
    }

    /// The outcomes; with none, the conditions cannot all hold.
    #[must_use]
    pub fn head(&self) -> &[Atom] {
        &self.atoms[self.body..]
    }

    /// The counts of the clause's deck.
    #[must_use]
    pub fn header(&self) -> Header {
        self.header
    }

    /// The clause in logical notation with names, as far as there are any.
    #[must_use]
    pub fn with_names<'a>(&'a self, names: &'a Names) -> impl fmt::Display + use<'a> {
        Written(move |f: &mut fmt::Formatter<'_>| self.write(f, Some(names)))
    }

    fn write(&self, f: &mut fmt::Formatter<'_>, names: Option<&Names>) -> fmt::Result {
        let [body, head] = [self.body(), self.head()].map(|atoms| atoms.iter().copied());
        let header = Some(self.header);
        notation::clause(f, body, head, Naming { header, names })
    }
}

impl From<Clause<'_>> for OwnedClause {
    fn from(clause: Clause<'_>) -> Self {
        Self {
            atoms: clause.body().chain(clause.head()).collect(),
            body: clause.body().len(),
            header: clause.header(),
        }
    }
}

/// As a [`Clause`] is written.
impl fmt::Display for OwnedClause {
    fn fmt(&self, f: &mut fmt::Formatter<'_>) -> fmt::Result {
        self.write(f, None)
    }
}

impl fmt::Debug for OwnedClause {
    fn fmt(&self, f: &mut fmt::Formatter<'_>) -> fmt::Result {
        f.debug_struct("OwnedClause")
            .field("body", &self.body())
            .field("head", &self.head())
            .finish()
    }
}

impl PartialEq for OwnedClause {
    fn eq(&self, other: &Self) -> bool {
        (self.body(), self.head()) == (other.body(), other.head())
    }
}

impl Eq for OwnedClause {}

impl Hash for OwnedClause {
    fn hash<H: Hasher>(&self, state: &mut H) {
        (self.body(), self.head()).hash(state);
    }
}

impl PartialEq<Clause<'_>> for OwnedClause {
    fn eq(&self, other: &Clause<'_>) -> bool {
        let same = |ours: &[Atom], theirs| ours.iter().copied().eq(theirs);
        same(self.body(), other.body()) && same(self.head(), other.head())
    }
}

impl PartialEq<OwnedClause> for Clause<'_> {
    fn eq(&self, other: &OwnedClause) -> bool {
        other == self
    }
}
