//! Decks made line by line, and clauses as short texts.
#![allow(dead_code, reason = "each test file uses its own part")]

use deck::{Axiom, Concept, Deck, Refusal};
use oracle::{Answer, Clause, Limits, Listing, answer};

/// A deck under construction. Concepts are named by their lines.
#[derive(Clone)]
pub struct Lines(pub Deck);

impl Lines {
    pub fn new(classes: u32, individuals: u32, roles: u32, options: u32) -> Self {
        Self(Deck {
            classes,
            individuals,
            roles,
            options,
            ..Deck::default()
        })
    }

    /// The concept's line, made where it is missing.
    pub fn concept(&mut self, concept: Concept) -> u32 {
        let concepts = &mut self.0.concepts;
        let line = concepts
            .iter()
            .position(|earlier| *earlier == concept)
            .unwrap_or_else(|| {
                concepts.push(concept);
                concepts.len() - 1
            });
        u32::try_from(line).unwrap()
    }

    pub fn top(&mut self) -> u32 {
        self.concept(Concept::Top)
    }

    pub fn bot(&mut self) -> u32 {
        self.concept(Concept::Bot)
    }

    pub fn class(&mut self, id: u32) -> u32 {
        self.concept(Concept::Atomic(id))
    }

    pub fn classes(&mut self, ids: std::ops::Range<u32>) -> Vec<u32> {
        ids.map(|id| self.class(id)).collect()
    }

    pub fn not(&mut self, part: u32) -> u32 {
        self.concept(Concept::Not(part))
    }

    pub fn nots(&mut self, parts: &[u32]) -> Vec<u32> {
        parts.iter().map(|&part| self.not(part)).collect()
    }

    pub fn and(&mut self, list: &[u32]) -> u32 {
        self.concept(Concept::And(rising(list)))
    }

    pub fn or(&mut self, list: &[u32]) -> u32 {
        self.concept(Concept::Or(rising(list)))
    }

    pub fn some(&mut self, role: u32, part: u32) -> u32 {
        self.concept(Concept::Some(role, part))
    }

    pub fn all(&mut self, role: u32, part: u32) -> u32 {
        self.concept(Concept::All(role, part))
    }

    pub fn min(&mut self, n: u32, role: u32, part: u32) -> u32 {
        self.concept(Concept::Min(n, role, part))
    }

    pub fn max(&mut self, n: u32, role: u32, part: u32) -> u32 {
        self.concept(Concept::Max(n, role, part))
    }

    pub fn axiom(&mut self, axiom: Axiom) -> &mut Self {
        self.0.axioms.push(axiom);
        self
    }

    pub fn sub(&mut self, sub: u32, sup: u32) -> &mut Self {
        self.axiom(Axiom::SubClassOf(sub, sup))
    }

    /// The concept of the last concept line.
    pub fn last_concept(&self) -> u32 {
        u32::try_from(self.0.concepts.len() - 1).unwrap()
    }

    /// The line of the last axiom, from 1.
    pub fn last_line(&self) -> u32 {
        self.0.axiom_line(self.0.axioms.len() - 1)
    }

    pub fn answer(&self, limits: &Limits) -> Answer {
        answer(&deck::write(&self.0), limits)
    }

    /// The listing under the largest tables.
    pub fn listing(&self) -> Listing {
        match self.answer(&Limits::LARGEST) {
            Answer::Accepted(listing) => listing,
            other => panic!("{other:?} to {:?}", self.0),
        }
    }

    /// The clauses as texts.
    pub fn clauses(&self) -> Vec<String> {
        self.listing().clauses.iter().map(show).collect()
    }

    pub fn refusal(&self, limits: &Limits) -> Refusal {
        match self.answer(limits) {
            Answer::Refused(refusal) => refusal,
            other => panic!("{other:?} to {:?}", self.0),
        }
    }
}

fn rising(list: &[u32]) -> Vec<u32> {
    let mut list = list.to_vec();
    list.sort_unstable();
    list
}

/// `A0(X) r0(X,1) -> A1(1)`: classes A, roles r, an inverse with a minus.
pub fn show(clause: &Clause) -> String {
    let side = |atoms: &[[u32; 6]]| atoms.iter().map(show_atom).collect::<Vec<_>>().join(" ");
    format!("{} -> {}", side(&clause.body), side(&clause.head))
        .trim()
        .to_owned()
}

fn show_atom(&[kind, code, class, n, u, v]: &[u32; 6]) -> String {
    let role = format!("r{}{}", code / 2, if code % 2 == 1 { "-" } else { "" });
    let class = if class == 0 {
        "*".to_owned()
    } else {
        format!("A{}", class - 1)
    };
    let variable = |v: u32| {
        if v == 0 {
            "X".to_owned()
        } else {
            v.to_string()
        }
    };
    let (u, v) = (variable(u), variable(v));
    match kind {
        1 => format!("{class}({u})"),
        2 => format!("{role}({u},{v})"),
        3 => format!("some.{role}.{class}({u})"),
        4 => format!("max{n}.{role}.{class}({u})"),
        5 => format!("min{n}.{role}.{class}({u})"),
        6 => format!("{u}={v}"),
        _ => panic!("no atom has kind {kind}"),
    }
}
