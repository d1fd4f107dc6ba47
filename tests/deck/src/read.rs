//! The reading of a deck, refusals 2 to 9, sentence by sentence from document 01. It is the second opinion beside the
//! proved reader, so it is plain, and shares nothing with it.

use std::collections::HashSet;

use crate::limits::{
    AXIOMS, CLASSES, CONCEPTS, DECK_BYTES, DEPTH, FIELD, INDIVIDUALS, LIST, OPTIONS, ROLES,
};
use crate::{Axiom, Concept, Deck, Refusal};

/// The deck that `bytes` hold, or why they are refused.
///
/// # Errors
/// The first bad line, with the lowest of 2 to 9 that it fails.
pub fn read(bytes: &[u8]) -> Result<Deck, Refusal> {
    if bytes.len() > DECK_BYTES {
        return Err(Refusal { number: 2, line: 0 });
    }
    if bytes.is_empty() {
        return Err(Refusal { number: 3, line: 1 });
    }
    let mut reader = Reader::default();
    for (line, text) in (1..).zip(bytes.split_inclusive(|&byte| byte == b'\n')) {
        reader
            .line(text)
            .map_err(|number| Refusal { number, line })?;
    }
    Ok(reader.deck)
}

/// What a line says, by its section.
enum Line {
    /// Classes, individuals, roles, options.
    Header([u32; 4]),
    Key(u32),
    Concept(Concept),
    Axiom(Axiom),
}

impl Line {
    fn section(&self) -> u32 {
        match self {
            Self::Header(_) => 0,
            Self::Key(_) => 1,
            Self::Concept(_) => 2,
            Self::Axiom(_) => 3,
        }
    }
}

/// The lines accepted so far.
#[derive(Default)]
struct Reader {
    deck: Deck,
    /// The section of the line before, none at the first line.
    section: Option<u32>,
    /// The depth of each concept.
    depths: Vec<u32>,
    /// The concept lines, for refusal 8.
    seen: HashSet<Concept>,
}

impl Reader {
    /// Takes one line, with its line feed, or answers the number that refuses it.
    fn line(&mut self, text: &[u8]) -> Result<(), u32> {
        let numbers = numbers(text).ok_or(2u32)?;
        let line = form(&numbers).ok_or(3u32)?;
        demand(3, self.in_section_order(&line))?;
        demand(4, self.within_limits(&line))?;
        demand(5, self.is_declared(&line))?;
        if let Line::Concept(concept) = &line {
            demand(6, self.names_earlier_concepts(concept))?;
            demand(6, self.depth(concept) <= DEPTH)?;
            demand(7, self.has_proper_list(concept))?;
            demand(8, !self.seen.contains(concept))?;
            demand(9, !matches!(concept, Concept::Max(u32::MAX, _, _)))?;
        }
        self.accept(line);
        Ok(())
    }

    /// Refusal 3: header, key marks, concepts, axioms; the header is one line, and the first.
    fn in_section_order(&self, line: &Line) -> bool {
        match self.section {
            None => line.section() == 0,
            Some(before) => line.section() > 0 && line.section() >= before,
        }
    }

    /// Refusal 4.
    fn within_limits(&self, line: &Line) -> bool {
        match line {
            &Line::Header([classes, individuals, roles, options]) => {
                classes <= CLASSES
                    && individuals <= INDIVIDUALS
                    && roles <= ROLES
                    && options <= OPTIONS
            }
            Line::Key(_) => true,
            Line::Concept(concept) => {
                self.deck.concepts.len() < CONCEPTS && concept_list(concept).len() <= LIST
            }
            Line::Axiom(axiom) => {
                self.deck.axioms.len() < AXIOMS && axiom_list(axiom).len() <= LIST
            }
        }
    }

    /// Refusal 5.
    fn is_declared(&self, line: &Line) -> bool {
        match line {
            Line::Header(_) => true,
            &Line::Key(class) => self.is_class(class),
            Line::Concept(concept) => self.is_concept_declared(concept),
            Line::Axiom(axiom) => self.is_axiom_declared(axiom),
        }
    }

    /// The concepts that a concept line names are left to refusal 6.
    fn is_concept_declared(&self, concept: &Concept) -> bool {
        match *concept {
            Concept::Top | Concept::Bot | Concept::Not(_) | Concept::And(_) | Concept::Or(_) => {
                true
            }
            Concept::Atomic(class) => self.is_class(class),
            Concept::Nominal(individual) => self.is_individual(individual),
            Concept::SelfRestriction(role)
            | Concept::Some(role, _)
            | Concept::All(role, _)
            | Concept::Min(_, role, _)
            | Concept::Max(_, role, _) => self.is_role(role),
        }
    }

    fn is_axiom_declared(&self, axiom: &Axiom) -> bool {
        match *axiom {
            Axiom::SubClassOf(sub, sup) => self.is_concept(sub) && self.is_concept(sup),
            Axiom::EquivalentClasses(ref list) | Axiom::DisjointClasses(ref list) => {
                self.are_concepts(list)
            }
            Axiom::DisjointUnion(class, ref list) => {
                self.is_class(class) && self.are_concepts(list)
            }
            Axiom::Domain(role, concept) | Axiom::Range(role, concept) => {
                self.is_role(role) && self.is_concept(concept)
            }
            Axiom::Chain(sup, ref parts) => self.is_role(sup) && self.are_roles(parts),
            Axiom::Transitive(role)
            | Axiom::Irreflexive(role)
            | Axiom::Asymmetric(role)
            | Axiom::Reflexive(role) => self.is_role(role),
            Axiom::DisjointRoles(ref list) | Axiom::EquivalentRoles(ref list) => {
                self.are_roles(list)
            }
            Axiom::Inverse(first, second) => self.is_role(first) && self.is_role(second),
            Axiom::RoleInclusion(sub, sup) => self.is_role(sub) && self.is_role(sup),
            Axiom::ClassAssertion(concept, individual) => {
                self.is_concept(concept) && self.is_individual(individual)
            }
        }
    }

    fn is_class(&self, class: u32) -> bool {
        class < self.deck.classes
    }

    fn is_individual(&self, individual: u32) -> bool {
        individual < self.deck.individuals
    }

    fn is_role(&self, code: u32) -> bool {
        code / 2 < self.deck.roles
    }

    fn are_roles(&self, codes: &[u32]) -> bool {
        codes.iter().all(|&code| self.is_role(code))
    }

    /// Whether a concept line with this number has been accepted.
    fn is_concept(&self, concept: u32) -> bool {
        (concept as usize) < self.deck.concepts.len()
    }

    fn are_concepts(&self, concepts: &[u32]) -> bool {
        concepts.iter().all(|&concept| self.is_concept(concept))
    }

    /// Refusal 6: neither itself, nor a later one, nor one that never comes.
    fn names_earlier_concepts(&self, concept: &Concept) -> bool {
        self.are_concepts(concept.parts())
    }

    /// The depth of a concept whose parts are earlier concepts.
    fn depth(&self, concept: &Concept) -> u32 {
        let parts = concept.parts().iter();
        1 + parts
            .map(|&part| self.depths[part as usize])
            .max()
            .unwrap_or(0)
    }

    /// Refusal 7, for a concept whose parts are earlier concepts.
    fn has_proper_list(&self, concept: &Concept) -> bool {
        let may_be_member = |&member: &u32| match self.deck.concepts[member as usize] {
            Concept::Top | Concept::Bot => false,
            Concept::And(_) => !matches!(concept, Concept::And(_)),
            Concept::Or(_) => !matches!(concept, Concept::Or(_)),
            _ => true,
        };
        match concept {
            Concept::And(list) | Concept::Or(list) => {
                list.len() >= 2
                    && list.is_sorted_by(|first, second| first < second)
                    && list.iter().all(may_be_member)
            }
            _ => true,
        }
    }

    fn accept(&mut self, line: Line) {
        self.section = Some(line.section());
        match line {
            Line::Header([classes, individuals, roles, options]) => {
                self.deck.classes = classes;
                self.deck.individuals = individuals;
                self.deck.roles = roles;
                self.deck.options = options;
            }
            Line::Key(class) => self.deck.keys.push(class),
            Line::Concept(concept) => {
                self.depths.push(self.depth(&concept));
                self.seen.insert(concept.clone());
                self.deck.concepts.push(concept);
            }
            Line::Axiom(axiom) => self.deck.axioms.push(axiom),
        }
    }
}

fn demand(number: u32, holds: bool) -> Result<(), u32> {
    if holds { Ok(()) } else { Err(number) }
}

/// The numbers of a line with its line feed, or `None`, which is refusal 2.
#[must_use]
pub fn numbers(text: &[u8]) -> Option<Vec<u32>> {
    let fields = text.strip_suffix(b"\n")?;
    if fields.is_empty() || fields.len() % FIELD != 0 {
        return None;
    }
    fields.chunks(FIELD).map(number).collect()
}

/// The number in 11 columns: at least one space, then its digits up to the last column.
fn number(field: &[u8]) -> Option<u32> {
    let spaces = field.iter().take_while(|&&byte| byte == b' ').count();
    let digits = &field[spaces..];
    if spaces == 0 || digits.is_empty() || !digits.iter().all(u8::is_ascii_digit) {
        return None;
    }
    if digits[0] == b'0' && digits.len() > 1 {
        return None;
    }
    let value = digits
        .iter()
        .fold(0u64, |value, &digit| 10 * value + u64::from(digit - b'0'));
    u32::try_from(value).ok()
}

/// Refusal 3: the line by its kind and its number of fields. An And or Or of no member has the form of a list: it is
/// left to refusal 7.
fn form(numbers: &[u32]) -> Option<Line> {
    match *numbers {
        [0, classes, individuals, roles, options] => {
            Some(Line::Header([classes, individuals, roles, options]))
        }
        [14, class] => Some(Line::Key(class)),
        [1..=12, ..] => concept_form(numbers).map(Line::Concept),
        [21..=36, ..] => axiom_form(numbers).map(Line::Axiom),
        _ => None,
    }
}

fn concept_form(numbers: &[u32]) -> Option<Concept> {
    Some(match *numbers {
        [1] => Concept::Top,
        [2] => Concept::Bot,
        [3, class] => Concept::Atomic(class),
        [4, individual] => Concept::Nominal(individual),
        [5, role] => Concept::SelfRestriction(role),
        [6, part] => Concept::Not(part),
        [7, ref list @ ..] => Concept::And(list.to_vec()),
        [8, ref list @ ..] => Concept::Or(list.to_vec()),
        [9, role, part] => Concept::Some(role, part),
        [10, role, part] => Concept::All(role, part),
        [11, n, role, part] => Concept::Min(n, role, part),
        [12, n, role, part] => Concept::Max(n, role, part),
        _ => return None,
    })
}

fn axiom_form(numbers: &[u32]) -> Option<Axiom> {
    Some(match *numbers {
        [21, sub, sup] => Axiom::SubClassOf(sub, sup),
        [22, ref list @ ..] => Axiom::EquivalentClasses(list.to_vec()),
        [23, ref list @ ..] => Axiom::DisjointClasses(list.to_vec()),
        [24, class, ref list @ ..] => Axiom::DisjointUnion(class, list.to_vec()),
        [25, role, concept] => Axiom::Domain(role, concept),
        [26, role, concept] => Axiom::Range(role, concept),
        [27, sup, ref parts @ ..] => Axiom::Chain(sup, parts.to_vec()),
        [28, role] => Axiom::Transitive(role),
        [29, role] => Axiom::Irreflexive(role),
        [30, role] => Axiom::Asymmetric(role),
        [31, ref list @ ..] => Axiom::DisjointRoles(list.to_vec()),
        [32, first, second] => Axiom::Inverse(first, second),
        [33, sub, sup] => Axiom::RoleInclusion(sub, sup),
        [34, ref list @ ..] => Axiom::EquivalentRoles(list.to_vec()),
        [35, role] => Axiom::Reflexive(role),
        [36, concept, individual] => Axiom::ClassAssertion(concept, individual),
        _ => return None,
    })
}

/// The list of a concept line, the rest of the line after its kind.
fn concept_list(concept: &Concept) -> &[u32] {
    match concept {
        Concept::And(list) | Concept::Or(list) => list,
        _ => &[],
    }
}

/// The list of an axiom line; the class of 24 and the sup of 27 stand before it.
fn axiom_list(axiom: &Axiom) -> &[u32] {
    match axiom {
        Axiom::EquivalentClasses(list)
        | Axiom::DisjointClasses(list)
        | Axiom::DisjointUnion(_, list)
        | Axiom::Chain(_, list)
        | Axiom::DisjointRoles(list)
        | Axiom::EquivalentRoles(list) => list,
        _ => &[],
    }
}
