//! The names that an axiom, or a whole deck, speaks of.

use std::collections::BTreeSet;

use deck::{Axiom, Concept, Deck};

/// Classes, role ids and individuals.
#[derive(Clone, Debug, Default)]
pub struct Names {
    pub classes: BTreeSet<u32>,
    pub roles: BTreeSet<u32>,
    pub individuals: BTreeSet<u32>,
}

impl Names {
    pub fn of_deck(deck: &Deck) -> Self {
        let mut names = Self::default();
        for axiom in &deck.axioms {
            names.add_axiom(deck, axiom);
        }
        names
    }

    pub fn of_axiom(deck: &Deck, axiom: &Axiom) -> Self {
        let mut names = Self::default();
        names.add_axiom(deck, axiom);
        names
    }

    fn add_axiom(&mut self, deck: &Deck, axiom: &Axiom) {
        match *axiom {
            Axiom::SubClassOf(sub, sup) => self.add_concepts(deck, &[sub, sup]),
            Axiom::EquivalentClasses(ref list) | Axiom::DisjointClasses(ref list) => {
                self.add_concepts(deck, list);
            }
            Axiom::DisjointUnion(class, ref list) => {
                self.classes.insert(class);
                self.add_concepts(deck, list);
            }
            Axiom::Domain(role, concept) | Axiom::Range(role, concept) => {
                self.add_roles(&[role]);
                self.add_concepts(deck, &[concept]);
            }
            Axiom::Chain(sup, ref parts) => {
                self.add_roles(&[sup]);
                self.add_roles(parts);
            }
            Axiom::Transitive(role)
            | Axiom::Irreflexive(role)
            | Axiom::Asymmetric(role)
            | Axiom::Reflexive(role) => self.add_roles(&[role]),
            Axiom::DisjointRoles(ref list) | Axiom::EquivalentRoles(ref list) => {
                self.add_roles(list);
            }
            Axiom::Inverse(first, second) | Axiom::RoleInclusion(first, second) => {
                self.add_roles(&[first, second]);
            }
            Axiom::ClassAssertion(concept, individual) => {
                self.individuals.insert(individual);
                self.add_concepts(deck, &[concept]);
            }
        }
    }

    fn add_roles(&mut self, codes: &[u32]) {
        self.roles.extend(codes.iter().map(|code| code / 2));
    }

    /// These concepts and all that they are made of.
    fn add_concepts(&mut self, deck: &Deck, concepts: &[u32]) {
        let mut seen = BTreeSet::new();
        let mut todo = concepts.to_vec();
        while let Some(concept) = todo.pop() {
            if !seen.insert(concept) {
                continue;
            }
            let line = &deck.concepts[concept as usize];
            todo.extend(line.parts());
            match *line {
                Concept::Atomic(class) => {
                    self.classes.insert(class);
                }
                Concept::Nominal(individual) => {
                    self.individuals.insert(individual);
                }
                Concept::SelfRestriction(role)
                | Concept::Some(role, _)
                | Concept::All(role, _)
                | Concept::Min(_, role, _)
                | Concept::Max(_, role, _) => self.add_roles(&[role]),
                _ => {}
            }
        }
    }
}
