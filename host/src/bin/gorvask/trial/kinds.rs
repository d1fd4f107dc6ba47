//! The kinds of axioms and concepts: what they are called in OWL, what their numbers are, and what is so where an axiom is broken.

/// What a number of a line names.
#[derive(Clone, Copy, Debug, PartialEq, Eq)]
pub enum Sort {
    /// A bound, written as it is.
    Number,
    Class,
    Individual,
    Role,
    Concept,
}

/// A kind of line.
pub struct Kind {
    pub number: u32,
    /// Its name in OWL's functional syntax.
    pub name: &'static str,
    /// The numbers after the kind; the last stands for each of a list.
    pub sorts: &'static [Sort],
    /// What is so where an axiom is broken; of a concept, nothing.
    pub broken: &'static str,
    /// The variables of the standard's condition, in its order. A chain has its own.
    pub variables: &'static [&'static str],
}

pub const CHAIN: u32 = 27;

/// The kind of this number.
pub fn of(number: u32) -> Option<&'static Kind> {
    AXIOMS
        .iter()
        .chain(CONCEPTS)
        .find(|kind| kind.number == number)
}

const fn concept(number: u32, name: &'static str, sorts: &'static [Sort]) -> Kind {
    axiom(number, name, sorts, "", &[])
}

const fn axiom(
    number: u32,
    name: &'static str,
    sorts: &'static [Sort],
    broken: &'static str,
    variables: &'static [&'static str],
) -> Kind {
    Kind {
        number,
        name,
        sorts,
        broken,
        variables,
    }
}

use Sort::{Class, Concept, Individual, Number, Role};

const CONCEPTS: &[Kind] = &[
    concept(1, "owl:Thing", &[]),
    concept(2, "owl:Nothing", &[]),
    concept(3, "", &[Class]),
    concept(4, "ObjectOneOf", &[Individual]),
    concept(5, "ObjectHasSelf", &[Role]),
    concept(6, "ObjectComplementOf", &[Concept]),
    concept(7, "ObjectIntersectionOf", &[Concept]),
    concept(8, "ObjectUnionOf", &[Concept]),
    concept(9, "ObjectSomeValuesFrom", &[Role, Concept]),
    concept(10, "ObjectAllValuesFrom", &[Role, Concept]),
    concept(11, "ObjectMinCardinality", &[Number, Role, Concept]),
    concept(12, "ObjectMaxCardinality", &[Number, Role, Concept]),
];

const AXIOMS: &[Kind] = &[
    axiom(
        21,
        "SubClassOf",
        &[Concept],
        "x is in the first and not in the second",
        &["x"],
    ),
    axiom(
        22,
        "EquivalentClasses",
        &[Concept],
        "x is in one of them and not in another",
        &["x"],
    ),
    axiom(
        23,
        "DisjointClasses",
        &[Concept],
        "x is in two of them",
        &["x"],
    ),
    axiom(
        24,
        "DisjointUnion",
        &[Class, Concept],
        "x is in the union and in no part, or in a part and not in the union, or in two parts",
        &["x"],
    ),
    axiom(
        25,
        "ObjectPropertyDomain",
        &[Role, Concept],
        "the role relates x to y, and x is not in the class",
        &["x", "y"],
    ),
    axiom(
        26,
        "ObjectPropertyRange",
        &[Role, Concept],
        "the role relates x to y, and y is not in the class",
        &["x", "y"],
    ),
    axiom(
        CHAIN,
        "SubObjectPropertyOf",
        &[Role],
        "each role of the chain relates one to the next, and the role behind the chain does not relate the first to the last",
        &[],
    ),
    axiom(
        28,
        "TransitiveObjectProperty",
        &[Role],
        "the role relates x to y and y to z, and not x to z",
        &["x", "y", "z"],
    ),
    axiom(
        29,
        "IrreflexiveObjectProperty",
        &[Role],
        "the role relates x to itself",
        &["x"],
    ),
    axiom(
        30,
        "AsymmetricObjectProperty",
        &[Role],
        "the role relates x to y and y to x",
        &["x", "y"],
    ),
    axiom(
        31,
        "DisjointObjectProperties",
        &[Role],
        "two of the roles relate x to y",
        &["x", "y"],
    ),
    axiom(
        32,
        "InverseObjectProperties",
        &[Role],
        "the first role relates x to y, or the second y to x, and not both",
        &["x", "y"],
    ),
    axiom(
        33,
        "SubObjectPropertyOf",
        &[Role],
        "the first role relates x to y, and the second does not",
        &["x", "y"],
    ),
    axiom(
        34,
        "EquivalentObjectProperties",
        &[Role],
        "one of the roles relates x to y, and another does not",
        &["x", "y"],
    ),
    axiom(
        35,
        "ReflexiveObjectProperty",
        &[Role],
        "the role does not relate x to itself",
        &["x"],
    ),
    axiom(
        36,
        "ClassAssertion",
        &[Concept, Individual],
        "the individual is not in the class",
        &[],
    ),
];
