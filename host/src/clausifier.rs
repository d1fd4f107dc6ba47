//! The call, with tables that grow.

use crate::atom::ClassId;
use crate::clauses::Clauses;
use crate::header::Header;
use crate::keys;
use crate::refusal::{Refusal, RefusalKind};
use crate::sizes::Sizes;
use crate::tables::Tables;

/// A clausifier with tables of its own, which it lends again from call to call and makes larger where a deck needs it.
#[derive(Clone)]
pub struct Clausifier {
    tables: Tables,
    /// The data keys of the deck that was accepted last.
    keys: Vec<ClassId>,
    /// Whether a deck's length decides what is lent at first.
    by_length: bool,
}

impl Clausifier {
    /// A clausifier that lends at first what a deck of its length usually finds enough, [`Sizes::for_deck`].
    #[must_use]
    pub fn new() -> Self {
        Self {
            by_length: true,
            ..Self::with_sizes(Sizes::FIRST)
        }
    }

    /// A clausifier with tables of so many records, each at most [`Sizes::LARGEST`]. It lends these, however long the deck
    /// is; with the largest no call is made twice.
    #[must_use]
    pub fn with_sizes(sizes: Sizes) -> Self {
        Self {
            tables: Tables::new(sizes.at_most(Sizes::LARGEST)),
            keys: Vec::new(),
            by_length: false,
        }
    }

    /// The records for which there is room.
    #[must_use]
    pub fn sizes(&self) -> Sizes {
        self.tables.sizes()
    }

    /// Makes room for at least so many records, as far as [`Sizes::LARGEST`] goes.
    pub fn reserve(&mut self, sizes: Sizes) {
        self.tables.grow(sizes.at_most(Sizes::LARGEST));
    }

    /// The clauses of a deck. Where there is no room, the tables are made eight times as large, at least [`Sizes::FIRST`] and
    /// at most [`Sizes::LARGEST`], and the deck is clausified again: all of them, since the library does not say which one was
    /// too small. From what a new clausifier lends that is two further calls at most, and three from smaller tables; a call
    /// ends where a table does, so that most of the time is the last one's. Then each table that was too small for the answer
    /// is cut to what the answer takes, rounded up to a power of two, and each other one to what it had. Where all had room
    /// for the answer, and only the way to it needed more, none is cut. A deck that is refused leaves the tables as large as
    /// they were.
    ///
    /// # Errors
    /// The refusal, if the deck is refused.
    ///
    /// # Panics
    /// Only with a library that is not the one that this wrapper is for.
    pub fn clausify(&mut self, deck: &[u8]) -> Result<Clauses<'_>, Refusal> {
        self.clausify_by(deck, Tables::call)
    }

    /// The clauses of a deck, by one call with the tables as large as they are: where there is no room, the deck is refused.
    ///
    /// # Errors
    /// The refusal, if the deck is refused.
    ///
    /// # Panics
    /// Only with a library that is not the one that this wrapper is for.
    pub fn clausify_fixed(&mut self, deck: &[u8]) -> Result<Clauses<'_>, Refusal> {
        match Refusal::of_reply(self.tables.call(deck)) {
            Some(refusal) => Err(refusal),
            None => Ok(self.accepted(deck)),
        }
    }

    /// What is said at [`Clausifier::clausify`], with this for a call.
    pub(crate) fn clausify_by(
        &mut self,
        deck: &[u8],
        mut call: impl FnMut(&mut Tables, &[u8]) -> u64,
    ) -> Result<Clauses<'_>, Refusal> {
        let before = self.sizes();
        if self.by_length {
            self.reserve(Sizes::for_deck(deck.len()));
        }
        let lent = self.sizes();
        while let Some(refusal) = Refusal::of_reply(call(&mut self.tables, deck)) {
            match self.sizes().enlarged() {
                Some(sizes) if refusal.kind() == RefusalKind::NoRoom => self.tables.grow(sizes),
                _ => {
                    self.tables.trim(before);
                    return Err(refusal);
                }
            }
        }
        if self.sizes() != lent {
            let kept = lent.grown_to(self.accepted(deck).sizes());
            self.tables.trim(kept.unwrap_or(self.sizes()));
        }
        Ok(self.accepted(deck))
    }

    /// Scratch, for calls that are lent no other table.
    pub(crate) fn scratch(&mut self) -> &mut [u8] {
        self.tables.scratch()
    }

    /// What the accepted call of this deck left in the tables.
    fn accepted(&mut self, deck: &[u8]) -> Clauses<'_> {
        self.keys = keys::of(deck);
        let header = Header::of(deck).expect("an accepted deck has a header");
        Clauses::new(header, &self.keys, &self.tables)
    }
}

impl Default for Clausifier {
    fn default() -> Self {
        Self::new()
    }
}

impl std::fmt::Debug for Clausifier {
    fn fmt(&self, f: &mut std::fmt::Formatter<'_>) -> std::fmt::Result {
        f.debug_struct("Clausifier")
            .field("sizes", &self.sizes())
            .finish_non_exhaustive()
    }
}

#[cfg(test)]
mod tests;
