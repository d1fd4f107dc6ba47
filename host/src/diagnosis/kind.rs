//! The kinds of a deck's lines, and what their numbers say.

use std::fmt;

/// A deck's sections, in their order.
#[derive(Clone, Copy, Debug, PartialEq, Eq, PartialOrd, Ord)]
pub(super) enum Section {
    Header,
    Keys,
    Concepts,
    Axioms,
}

impl Section {
    /// What its lines are called.
    pub fn lines(self) -> &'static str {
        match self {
            Self::Header => "header",
            Self::Keys => "key marks",
            Self::Concepts => "concepts",
            Self::Axioms => "axioms",
        }
    }
}

/// What a number of a line says.
#[derive(Clone, Copy, Debug, PartialEq, Eq)]
pub(super) enum Sort {
    /// A count or the options of the header.
    Count,
    /// The bound of a Min or Max.
    Bound,
    Class,
    Individual,
    Role,
    Concept,
}

/// A number's name, and what it says.
pub(super) type Field = (&'static str, Sort);

#[derive(Debug)]
pub(super) struct Kind {
    pub number: u32,
    pub name: &'static str,
    pub section: Section,
    /// The numbers after the kind and before a list.
    pub fields: &'static [Field],
    /// What the rest of the line lists.
    pub list: Option<Sort>,
}

impl Kind {
    pub const HEADER: u32 = 0;
    pub const TOP: u32 = 1;
    pub const BOT: u32 = 2;
    pub const AND: u32 = 7;
    pub const OR: u32 = 8;
    pub const MAX: u32 = 12;

    /// The kind of this number, if there is one.
    pub fn of(number: u32) -> Option<&'static Self> {
        KINDS.iter().find(|kind| kind.number == number)
    }

    const fn new(number: u32, name: &'static str, fields: &'static [Field]) -> Self {
        let section = match number {
            Self::HEADER => Section::Header,
            14 => Section::Keys,
            1..=12 => Section::Concepts,
            _ => Section::Axioms,
        };
        Self {
            number,
            name,
            section,
            fields,
            list: None,
        }
    }

    const fn listing(self, sort: Sort) -> Self {
        Self {
            list: Some(sort),
            ..self
        }
    }
}

impl fmt::Display for Kind {
    fn fmt(&self, f: &mut fmt::Formatter<'_>) -> fmt::Result {
        write!(f, "kind {} ({})", self.number, self.name)
    }
}

const CLASS: Field = ("class", Sort::Class);
const INDIVIDUAL: Field = ("individual", Sort::Individual);
const ROLE: Field = ("role", Sort::Role);
const CONCEPT: Field = ("concept", Sort::Concept);
const BOUND: Field = ("bound", Sort::Bound);
const HEADER: &[Field] = &[
    ("classes", Sort::Count),
    ("individuals", Sort::Count),
    ("roles", Sort::Count),
    ("options", Sort::Count),
];

static KINDS: [Kind; 30] = [
    Kind::new(Kind::HEADER, "header", HEADER),
    Kind::new(Kind::TOP, "Top", &[]),
    Kind::new(Kind::BOT, "Bot", &[]),
    Kind::new(3, "Atomic", &[CLASS]),
    Kind::new(4, "Nominal", &[INDIVIDUAL]),
    Kind::new(5, "Self", &[ROLE]),
    Kind::new(6, "Not", &[CONCEPT]),
    Kind::new(Kind::AND, "And", &[]).listing(Sort::Concept),
    Kind::new(Kind::OR, "Or", &[]).listing(Sort::Concept),
    Kind::new(9, "Some", &[ROLE, CONCEPT]),
    Kind::new(10, "All", &[ROLE, CONCEPT]),
    Kind::new(11, "Min", &[BOUND, ROLE, CONCEPT]),
    Kind::new(Kind::MAX, "Max", &[BOUND, ROLE, CONCEPT]),
    Kind::new(14, "key mark", &[CLASS]),
    Kind::new(
        21,
        "SubClassOf",
        &[("sub", Sort::Concept), ("sup", Sort::Concept)],
    ),
    Kind::new(22, "EquivalentClasses", &[]).listing(Sort::Concept),
    Kind::new(23, "DisjointClasses", &[]).listing(Sort::Concept),
    Kind::new(24, "DisjointUnion", &[CLASS]).listing(Sort::Concept),
    Kind::new(25, "domain", &[ROLE, CONCEPT]),
    Kind::new(26, "range", &[ROLE, CONCEPT]),
    Kind::new(27, "chain", &[("sup", Sort::Role)]).listing(Sort::Role),
    Kind::new(28, "transitive", &[ROLE]),
    Kind::new(29, "irreflexive", &[ROLE]),
    Kind::new(30, "asymmetric", &[ROLE]),
    Kind::new(31, "disjoint roles", &[]).listing(Sort::Role),
    Kind::new(32, "inverse", &[ROLE, ROLE]),
    Kind::new(
        33,
        "role inclusion",
        &[("sub", Sort::Role), ("sup", Sort::Role)],
    ),
    Kind::new(34, "equivalent roles", &[]).listing(Sort::Role),
    Kind::new(35, "reflexive", &[ROLE]),
    Kind::new(36, "ClassAssertion", &[CONCEPT, INDIVIDUAL]),
];
