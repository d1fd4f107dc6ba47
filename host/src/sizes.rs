//! How large the tables are.

use crate::sys::{ATOM_BYTES, CLAUSE_BYTES, DEFERRAL_BYTES};

/// How many records the three tables have room for.
#[derive(Clone, Copy, Debug, PartialEq, Eq, Hash)]
pub struct Sizes {
    /// Records of the clause table.
    pub clauses: usize,
    /// Records of the atom table.
    pub atoms: usize,
    /// Records of the deferral table.
    pub deferrals: usize,
}

impl Sizes {
    /// What a new [`Clausifier`](crate::Clausifier) lends to a short deck.
    pub const FIRST: Self = Self {
        clauses: 1_024,
        atoms: 4_096,
        deferrals: 1_024,
    };

    /// What the proved program `lister` lends to every deck.
    pub const LISTER: Self = Self {
        clauses: 1_024,
        atoms: 2_048,
        deferrals: 256,
    };

    /// The most that may be lent. With these no deck asks for more.
    pub const LARGEST: Self = Self {
        clauses: 65_536,
        atoms: 262_144,
        deferrals: 65_536,
    };

    /// What a deck of so many bytes usually finds enough: a clause for each 16 bytes, four atoms for each clause, and in no
    /// table less than [`Sizes::FIRST`]. A deck for a junction has a clause for each 40 bytes or so; a deck that is built to
    /// multiply needs more.
    #[must_use]
    pub fn for_deck(bytes: usize) -> Self {
        let clauses = (bytes / 16).next_power_of_two();
        let guess = Self {
            clauses,
            atoms: 4 * clauses,
            deferrals: 0,
        };
        guess.at_least(Self::FIRST).at_most(Self::LARGEST)
    }

    /// Bytes of the three tables.
    #[must_use]
    pub fn bytes(self) -> usize {
        CLAUSE_BYTES * self.clauses + ATOM_BYTES * self.atoms + DEFERRAL_BYTES * self.deferrals
    }

    /// Each the smaller of the two.
    pub(crate) fn at_most(self, other: Self) -> Self {
        self.with(other, usize::min)
    }

    /// Each the larger of the two.
    pub(crate) fn at_least(self, other: Self) -> Self {
        self.with(other, usize::max)
    }

    /// Eight times the records of each table, and at least [`Sizes::FIRST`], as far as may be; none where all are the largest.
    pub(crate) fn enlarged(self) -> Option<Self> {
        let eightfold = self.with(Self::FIRST, |has, first| first.max(8 * has));
        (self != Self::LARGEST).then(|| eightfold.at_most(Self::LARGEST))
    }

    /// These sizes with room for so many records, each table that has it not rounded up; none where all have it.
    pub(crate) fn grown_to(self, needed: Self) -> Option<Self> {
        let room = |has: usize, needs: usize| {
            if needs > has {
                needs.next_power_of_two()
            } else {
                has
            }
        };
        let grown = self.with(needed, room).at_most(Self::LARGEST);
        (grown != self).then_some(grown)
    }

    fn with(self, other: Self, of: impl Fn(usize, usize) -> usize) -> Self {
        Self {
            clauses: of(self.clauses, other.clauses),
            atoms: of(self.atoms, other.atoms),
            deferrals: of(self.deferrals, other.deferrals),
        }
    }
}

/// Sizes in one line, for tests.
#[cfg(test)]
pub fn sizes(clauses: usize, atoms: usize, deferrals: usize) -> Sizes {
    Sizes {
        clauses,
        atoms,
        deferrals,
    }
}

#[cfg(test)]
mod tests {
    use super::{Sizes, sizes};

    #[test]
    fn by_the_length_of_the_deck() {
        assert_eq!(Sizes::for_deck(0), Sizes::FIRST);
        assert_eq!(Sizes::for_deck(16 * 1_024), Sizes::FIRST);
        assert_eq!(Sizes::for_deck(40_000), sizes(4_096, 16_384, 1_024));
        assert_eq!(Sizes::for_deck(65_536), sizes(4_096, 16_384, 1_024));
        assert_eq!(Sizes::for_deck(1 << 40), sizes(65_536, 262_144, 1_024));
    }

    #[test]
    fn growth_rounds_up_what_is_short() {
        let some = sizes(29, 60, 0);
        assert_eq!(some.grown_to(sizes(29, 60, 0)), None);
        assert_eq!(some.grown_to(sizes(30, 58, 0)), Some(sizes(32, 60, 0)));
        assert_eq!(some.grown_to(sizes(3, 61, 5)), Some(sizes(29, 64, 8)));
        assert_eq!(some.grown_to(Sizes::LARGEST), Some(Sizes::LARGEST));
        assert_eq!(Sizes::LARGEST.grown_to(Sizes::LARGEST), None);
    }

    #[test]
    fn enlarging_ends_at_the_largest() {
        let second = sizes(8_192, 32_768, 8_192);
        assert_eq!(Sizes::FIRST.enlarged(), Some(second));
        assert_eq!(second.enlarged(), Some(Sizes::LARGEST));
        assert_eq!(Sizes::LARGEST.enlarged(), None);
        assert_eq!(sizes(0, 5, 0).enlarged(), Some(Sizes::FIRST));
        let uneven = sizes(65_536, 100_000, 3_000);
        assert_eq!(uneven.enlarged(), Some(sizes(65_536, 262_144, 24_000)));
    }

    #[test]
    fn bytes_of_the_largest() {
        assert_eq!(Sizes::LARGEST.bytes(), 786_432 + 6_291_456 + 524_288);
    }
}
