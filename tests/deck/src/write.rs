//! A deck's bytes.

use crate::limits::{FIELD, LIST};
use crate::{Axiom, Concept, Deck};

/// The bytes of `deck`, section after section. It writes what it is given: a deck need not keep the limits.
#[must_use]
pub fn write(deck: &Deck) -> Vec<u8> {
    let mut out = Vec::new();
    row(
        &mut out,
        &[0, deck.classes, deck.individuals, deck.roles, deck.options],
    );
    for &class in &deck.keys {
        row(&mut out, &[14, class]);
    }
    for concept in &deck.concepts {
        row(&mut out, &concept_row(concept));
    }
    for axiom in &deck.axioms {
        row(&mut out, &axiom_row(axiom));
    }
    out
}

/// Appends one line: each number right-justified in 11 columns, then the line feed.
pub fn row(out: &mut Vec<u8>, numbers: &[u32]) {
    for number in numbers {
        let digits = number.to_string();
        out.resize(out.len() + FIELD - digits.len(), b' ');
        out.extend_from_slice(digits.as_bytes());
    }
    out.push(b'\n');
}

/// Bytes of a line of so many numbers.
#[must_use]
pub fn line_bytes(numbers: usize) -> usize {
    FIELD * numbers + 1
}

/// Lengths of lists that, each behind its kind, take up exactly `bytes` together, 1,000 or more.
#[must_use]
pub fn lists_of_bytes(bytes: usize) -> Vec<usize> {
    // A line has one byte beyond its fields, so the number of lines is known up to a multiple of 11.
    let mut lines = bytes % FIELD;
    while lines * line_bytes(1 + LIST) < bytes {
        lines += FIELD;
    }
    let mut members = (bytes - lines * line_bytes(1)) / FIELD;
    let mut lengths = Vec::new();
    for _ in 0..lines {
        let length = members.min(LIST);
        members -= length;
        lengths.push(length);
    }
    lengths
}

/// The numbers of a concept line, its kind first.
#[must_use]
pub fn concept_row(concept: &Concept) -> Vec<u32> {
    match *concept {
        Concept::Top => vec![1],
        Concept::Bot => vec![2],
        Concept::Atomic(class) => vec![3, class],
        Concept::Nominal(individual) => vec![4, individual],
        Concept::SelfRestriction(role) => vec![5, role],
        Concept::Not(part) => vec![6, part],
        Concept::And(ref list) => with_list(&[7], list),
        Concept::Or(ref list) => with_list(&[8], list),
        Concept::Some(role, part) => vec![9, role, part],
        Concept::All(role, part) => vec![10, role, part],
        Concept::Min(n, role, part) => vec![11, n, role, part],
        Concept::Max(n, role, part) => vec![12, n, role, part],
    }
}

/// The numbers of an axiom line, its kind first.
#[must_use]
pub fn axiom_row(axiom: &Axiom) -> Vec<u32> {
    match *axiom {
        Axiom::SubClassOf(sub, sup) => vec![21, sub, sup],
        Axiom::EquivalentClasses(ref list) => with_list(&[22], list),
        Axiom::DisjointClasses(ref list) => with_list(&[23], list),
        Axiom::DisjointUnion(class, ref list) => with_list(&[24, class], list),
        Axiom::Domain(role, concept) => vec![25, role, concept],
        Axiom::Range(role, concept) => vec![26, role, concept],
        Axiom::Chain(sup, ref parts) => with_list(&[27, sup], parts),
        Axiom::Transitive(role) => vec![28, role],
        Axiom::Irreflexive(role) => vec![29, role],
        Axiom::Asymmetric(role) => vec![30, role],
        Axiom::DisjointRoles(ref list) => with_list(&[31], list),
        Axiom::Inverse(first, second) => vec![32, first, second],
        Axiom::RoleInclusion(sub, sup) => vec![33, sub, sup],
        Axiom::EquivalentRoles(ref list) => with_list(&[34], list),
        Axiom::Reflexive(role) => vec![35, role],
        Axiom::ClassAssertion(concept, individual) => vec![36, concept, individual],
    }
}

fn with_list(front: &[u32], list: &[u32]) -> Vec<u32> {
    [front, list].concat()
}

#[cfg(test)]
mod tests {
    use super::{line_bytes, lists_of_bytes, row};
    use crate::limits::LIST;

    #[test]
    fn numbers_end_in_their_columns() {
        let mut out = Vec::new();
        row(&mut out, &[0, 4_294_967_295, 12]);
        assert_eq!(out, b"          0 4294967295         12\n");
        assert_eq!(out.len(), line_bytes(3));
    }

    #[test]
    fn lists_take_up_the_bytes() {
        for bytes in 1_000..66_000 {
            let lengths = lists_of_bytes(bytes);
            assert!(lengths.iter().all(|&length| length <= LIST));
            let sum: usize = lengths.iter().map(|length| line_bytes(1 + length)).sum();
            assert_eq!(sum, bytes);
        }
    }
}
