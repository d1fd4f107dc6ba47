//! A deck in the making: every line it takes keeps the limits, and no concept line comes twice.

use std::collections::HashMap;

use crate::limits::{AXIOMS, CONCEPTS, DECK_BYTES, DEPTH, LIST};
use crate::random::Random;
use crate::write::{axiom_row, concept_row, line_bytes};
use crate::{Axiom, Concept, Deck};

/// Bytes that concept lines leave for axioms.
const AXIOM_BYTES: usize = 4_000;

pub struct Builder<'r> {
    pub rng: &'r mut Random,
    deck: Deck,
    ids: HashMap<Concept, u32>,
    depths: Vec<u32>,
    bytes: usize,
}

impl<'r> Builder<'r> {
    /// A deck with no names and any options, one in three with 4 and one in six with 8, which the unmodified Rust does not
    /// have. The other lines are drawn as without 8.
    pub fn new(rng: &'r mut Random) -> Self {
        let eight = rng.beside(8).chance(1, 6);
        let drawn = rng.below(12);
        let four = drawn.is_multiple_of(3);
        let options = drawn / 3 + 4 * u32::from(four) + 8 * u32::from(eight);
        Self {
            rng,
            deck: Deck {
                options,
                ..Deck::default()
            },
            ids: HashMap::new(),
            depths: Vec::new(),
            bytes: line_bytes(5),
        }
    }

    /// A deck to be continued.
    pub fn on(rng: &'r mut Random, deck: &Deck) -> Self {
        let mut builder = Self::new(rng);
        builder.declare(deck.classes, deck.individuals, deck.roles);
        builder.set_options(deck.options);
        for &class in &deck.keys {
            builder.key(class);
        }
        for concept in &deck.concepts {
            builder.concept(concept.clone());
        }
        for axiom in &deck.axioms {
            builder.axiom(axiom.clone());
        }
        builder
    }

    pub fn finish(self) -> Deck {
        self.deck
    }

    pub fn deck(&self) -> &Deck {
        &self.deck
    }

    /// Declares the names; to be called before any line is added.
    pub fn declare(&mut self, classes: u32, individuals: u32, roles: u32) {
        self.deck.classes = classes;
        self.deck.individuals = individuals;
        self.deck.roles = roles;
    }

    pub fn set_options(&mut self, options: u32) {
        self.deck.options = options;
    }

    /// Bytes that are still free.
    pub fn room(&self) -> usize {
        DECK_BYTES - self.bytes
    }

    pub fn depth(&self, concept: u32) -> u32 {
        self.depths[concept as usize]
    }

    pub fn get(&self, concept: u32) -> &Concept {
        &self.deck.concepts[concept as usize]
    }

    /// The number of concept lines.
    pub fn len(&self) -> u32 {
        u32::try_from(self.deck.concepts.len()).expect("at most 1,024 concepts")
    }

    /// Marks a class if the line still fits.
    pub fn key(&mut self, class: u32) {
        if self.room() >= line_bytes(2) {
            self.bytes += line_bytes(2);
            self.deck.keys.push(class);
        }
    }

    /// Adds an axiom, and says whether it fitted.
    pub fn axiom(&mut self, axiom: Axiom) -> bool {
        let bytes = line_bytes(axiom_row(&axiom).len());
        let fits = self.deck.axioms.len() < AXIOMS && bytes <= self.room();
        if fits {
            self.bytes += bytes;
            self.deck.axioms.push(axiom);
        }
        fits
    }

    /// Puts the last `count` axioms first.
    pub fn last_axioms_first(&mut self, count: usize) {
        self.deck.axioms.rotate_right(count);
    }

    /// Puts the last `count` axioms anywhere among the others, in their order.
    pub fn mingle_last_axioms(&mut self, count: usize) {
        let others = self.deck.axioms.len() - count;
        let last = self.deck.axioms.split_off(others);
        let mut places: Vec<usize> = last.iter().map(|_| self.rng.index(others + 1)).collect();
        places.sort_unstable();
        for (before, (place, axiom)) in places.into_iter().zip(last).enumerate() {
            self.deck.axioms.insert(place + before, axiom);
        }
    }

    pub fn shuffle_axioms(&mut self) {
        self.rng.shuffle(&mut self.deck.axioms);
    }

    /// The number of `concept`, a new line if there is none yet. Where a limit bars the line, an earlier concept stands
    /// in for it.
    fn concept(&mut self, concept: Concept) -> u32 {
        if let Some(&id) = self.ids.get(&concept) {
            return id;
        }
        let parts = concept.parts().iter();
        let depth = 1 + parts.map(|&part| self.depth(part)).max().unwrap_or(0);
        if depth > DEPTH {
            return concept.parts()[0];
        }
        let bytes = line_bytes(concept_row(&concept).len());
        let id = self.len();
        if id as usize == CONCEPTS || self.room() < bytes + AXIOM_BYTES {
            return id - 1;
        }
        self.bytes += bytes;
        self.depths.push(depth);
        self.ids.insert(concept.clone(), id);
        self.deck.concepts.push(concept);
        id
    }

    pub fn top(&mut self) -> u32 {
        self.concept(Concept::Top)
    }

    pub fn bot(&mut self) -> u32 {
        self.concept(Concept::Bot)
    }

    pub fn atomic(&mut self, class: u32) -> u32 {
        self.concept(Concept::Atomic(class))
    }

    pub fn nominal(&mut self, individual: u32) -> u32 {
        self.concept(Concept::Nominal(individual))
    }

    pub fn self_restriction(&mut self, role: u32) -> u32 {
        self.concept(Concept::SelfRestriction(role))
    }

    pub fn not(&mut self, part: u32) -> u32 {
        self.concept(Concept::Not(part))
    }

    pub fn some(&mut self, role: u32, part: u32) -> u32 {
        self.concept(Concept::Some(role, part))
    }

    pub fn all(&mut self, role: u32, part: u32) -> u32 {
        self.concept(Concept::All(role, part))
    }

    pub fn min(&mut self, n: u32, role: u32, part: u32) -> u32 {
        self.concept(Concept::Min(n, role, part))
    }

    pub fn max(&mut self, n: u32, role: u32, part: u32) -> u32 {
        self.concept(Concept::Max(n, role, part))
    }

    /// The And of those of `members` that an And may have, or the only one of them, or Top.
    pub fn and(&mut self, members: &[u32]) -> u32 {
        let list = self.proper_list(members, |concept| matches!(concept, Concept::And(_)));
        match *list {
            [] => self.top(),
            [only] => only,
            _ => self.concept(Concept::And(list)),
        }
    }

    /// The Or of those of `members` that an Or may have, or the only one of them, or Bot.
    pub fn or(&mut self, members: &[u32]) -> u32 {
        let list = self.proper_list(members, |concept| matches!(concept, Concept::Or(_)));
        match *list {
            [] => self.bot(),
            [only] => only,
            _ => self.concept(Concept::Or(list)),
        }
    }

    fn proper_list(&self, members: &[u32], own_kind: impl Fn(&Concept) -> bool) -> Vec<u32> {
        let barred =
            |concept: &Concept| matches!(concept, Concept::Top | Concept::Bot) || own_kind(concept);
        let mut list: Vec<u32> = members
            .iter()
            .copied()
            .filter(|&member| !barred(self.get(member)))
            .collect();
        list.sort_unstable();
        list.dedup();
        list.truncate(LIST);
        list
    }
}
