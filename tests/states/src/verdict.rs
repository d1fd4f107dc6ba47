//! What a test says of a state: it holds, or what is broken first and where.

/// What is tested.
#[derive(Clone, Copy, Debug, PartialEq, Eq)]
pub enum Test {
    Axioms,
    Clauses,
}

impl Test {
    pub const BOTH: [Self; 2] = [Self::Axioms, Self::Clauses];

    #[must_use]
    pub fn name(self) -> &'static str {
        match self {
            Self::Axioms => "axioms",
            Self::Clauses => "clauses",
        }
    }
}

#[derive(Clone, Debug, PartialEq, Eq)]
pub enum Verdict {
    Holds,
    /// The axiom's line, or the clause's number from 0; and the least assignment that breaks it.
    Broken(u32, Vec<u32>),
}

impl Verdict {
    /// Behind the ten numbers of the store.
    ///
    /// # Panics
    /// If there are more elements than a word can count.
    #[must_use]
    pub fn words(&self) -> Vec<u32> {
        match self {
            Self::Holds => vec![0, 0],
            Self::Broken(number, elements) => {
                let count = u32::try_from(elements.len()).expect("at most 129");
                [&[*number, count], &elements[..]].concat()
            }
        }
    }

    /// The reply.
    #[must_use]
    pub fn code(&self) -> u64 {
        u64::from(*self != Self::Holds)
    }
}
