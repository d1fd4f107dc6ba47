//! A deck in the making: a concept that is there already is not written twice.

use std::collections::HashMap;

use deck::{Axiom, Concept, Deck};

pub struct Draft {
    deck: Deck,
    ids: HashMap<Concept, u32>,
}

impl Draft {
    /// A deck with so many names, and both options.
    pub fn new(classes: u32, individuals: u32, roles: u32) -> Self {
        Self {
            deck: Deck {
                classes,
                individuals,
                roles,
                options: 3,
                ..Deck::default()
            },
            ids: HashMap::new(),
        }
    }

    pub fn set_options(&mut self, options: u32) {
        self.deck.options = options;
    }

    pub fn bytes(&self) -> Vec<u8> {
        deck::write(&self.deck)
    }

    pub fn deck(&self) -> &Deck {
        &self.deck
    }

    pub fn concepts(&self) -> usize {
        self.deck.concepts.len()
    }

    /// Takes the concepts behind the first so many away again.
    pub fn cut(&mut self, concepts: usize) {
        for concept in self.deck.concepts.drain(concepts..) {
            self.ids.remove(&concept);
        }
    }

    pub fn axioms(&self) -> usize {
        self.deck.axioms.len()
    }

    pub fn axiom(&mut self, axiom: Axiom) {
        self.deck.axioms.push(axiom);
    }

    /// An inclusion.
    pub fn below(&mut self, sub: u32, sup: u32) {
        self.axiom(Axiom::SubClassOf(sub, sup));
    }

    /// The number of the concept.
    pub fn concept(&mut self, concept: Concept) -> u32 {
        if let Some(&id) = self.ids.get(&concept) {
            return id;
        }
        let id = u32::try_from(self.deck.concepts.len()).expect("few concepts");
        self.ids.insert(concept.clone(), id);
        self.deck.concepts.push(concept);
        id
    }

    pub fn top(&mut self) -> u32 {
        self.concept(Concept::Top)
    }

    pub fn class(&mut self, class: u32) -> u32 {
        self.concept(Concept::Atomic(class))
    }

    /// The concepts of classes `from` up to, without, `to`.
    pub fn classes(&mut self, from: u32, to: u32) -> Vec<u32> {
        (from..to).map(|class| self.class(class)).collect()
    }

    pub fn nominal(&mut self, individual: u32) -> u32 {
        self.concept(Concept::Nominal(individual))
    }

    pub fn not(&mut self, part: u32) -> u32 {
        self.concept(Concept::Not(part))
    }

    pub fn some(&mut self, role: u32, part: u32) -> u32 {
        self.concept(Concept::Some(role, part))
    }

    pub fn all(&mut self, role: u32, part: u32) -> u32 {
        self.concept(Concept::All(role, part))
    }

    pub fn min(&mut self, n: u32, role: u32, part: u32) -> u32 {
        self.concept(Concept::Min(n, role, part))
    }

    pub fn max(&mut self, n: u32, role: u32, part: u32) -> u32 {
        self.concept(Concept::Max(n, role, part))
    }

    /// The And of the members, or the only one.
    pub fn and(&mut self, members: &[u32]) -> u32 {
        let list = rising(members);
        match *list {
            [only] => only,
            _ => self.concept(Concept::And(list)),
        }
    }

    /// The Or of the members, or the only one.
    pub fn or(&mut self, members: &[u32]) -> u32 {
        let list = rising(members);
        match *list {
            [only] => only,
            _ => self.concept(Concept::Or(list)),
        }
    }
}

fn rising(members: &[u32]) -> Vec<u32> {
    let mut list = members.to_vec();
    list.sort_unstable();
    list.dedup();
    list
}
