//! Decks as the tests see them: their data, a reading that is independent of the proved one, printing, and a seeded generator.

pub mod damage;
pub mod generate;
pub mod limits;
pub mod random;
pub mod read;
pub mod write;

pub use read::read;
pub use write::write;

/// A deck's lines in their sections. A role is its code: 2 × id, plus 1 for the inverse.
#[derive(Clone, Debug, Default, PartialEq, Eq)]
pub struct Deck {
    pub classes: u32,
    pub individuals: u32,
    pub roles: u32,
    pub options: u32,
    /// The classes of the key-mark lines, in their order, repeats kept.
    pub keys: Vec<u32>,
    pub concepts: Vec<Concept>,
    pub axioms: Vec<Axiom>,
}

impl Deck {
    /// The line of axiom `index`, from 1.
    #[must_use]
    pub fn axiom_line(&self, index: usize) -> u32 {
        u32::try_from(2 + self.keys.len() + self.concepts.len() + index)
            .expect("a deck's lines fit in u32")
    }
}

/// Kinds 1 to 12; concepts are named by their number from 0.
#[derive(Clone, Debug, PartialEq, Eq, Hash)]
pub enum Concept {
    Top,
    Bot,
    Atomic(u32),
    Nominal(u32),
    SelfRestriction(u32),
    Not(u32),
    And(Vec<u32>),
    Or(Vec<u32>),
    Some(u32, u32),
    All(u32, u32),
    /// Number, role, concept.
    Min(u32, u32, u32),
    /// Number, role, concept.
    Max(u32, u32, u32),
}

impl Concept {
    /// The concepts that the line names, in its order.
    #[must_use]
    pub fn parts(&self) -> &[u32] {
        match self {
            Self::Top
            | Self::Bot
            | Self::Atomic(_)
            | Self::Nominal(_)
            | Self::SelfRestriction(_) => &[],
            Self::And(list) | Self::Or(list) => list,
            Self::Not(part)
            | Self::Some(_, part)
            | Self::All(_, part)
            | Self::Min(_, _, part)
            | Self::Max(_, _, part) => std::slice::from_ref(part),
        }
    }
}

/// Kinds 21 to 36.
#[derive(Clone, Debug, PartialEq, Eq, Hash)]
pub enum Axiom {
    /// 21: sub, sup.
    SubClassOf(u32, u32),
    /// 22.
    EquivalentClasses(Vec<u32>),
    /// 23.
    DisjointClasses(Vec<u32>),
    /// 24: class, members.
    DisjointUnion(u32, Vec<u32>),
    /// 25: role, concept.
    Domain(u32, u32),
    /// 26: role, concept.
    Range(u32, u32),
    /// 27: sup, parts.
    Chain(u32, Vec<u32>),
    /// 28.
    Transitive(u32),
    /// 29.
    Irreflexive(u32),
    /// 30.
    Asymmetric(u32),
    /// 31.
    DisjointRoles(Vec<u32>),
    /// 32.
    Inverse(u32, u32),
    /// 33: sub, sup.
    RoleInclusion(u32, u32),
    /// 34.
    EquivalentRoles(Vec<u32>),
    /// 35.
    Reflexive(u32),
    /// 36: concept, individual.
    ClassAssertion(u32, u32),
}

/// A refusal: document 01's number and a line, from 1, or 0 where none is named.
#[derive(Clone, Copy, Debug, PartialEq, Eq, Hash)]
pub struct Refusal {
    pub number: u32,
    pub line: u32,
}
