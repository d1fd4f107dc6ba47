//! Small decks whose axioms and clauses dwell on what a test of a state must meet: one axiom of each kind, clauses of one to five
//! variables, chains of any length, lists.

use std::collections::HashMap;

use deck::random::Random;
use deck::{Axiom, Concept, Deck};

/// A deck in the making.
pub struct Make<'r> {
    pub rng: &'r mut Random,
    pub deck: Deck,
    ids: HashMap<Concept, u32>,
}

impl<'r> Make<'r> {
    pub fn new(rng: &'r mut Random, [classes, individuals, roles]: [u32; 3]) -> Self {
        let eight = rng.beside(8).chance(1, 6);
        let drawn = rng.below(12);
        let four = drawn.is_multiple_of(3);
        let options = drawn / 3 + 4 * u32::from(four) + 8 * u32::from(eight);
        Self {
            rng,
            deck: Deck {
                classes,
                individuals,
                roles,
                options,
                ..Deck::default()
            },
            ids: HashMap::new(),
        }
    }

    pub fn concept(&mut self, concept: Concept) -> u32 {
        let next = u32::try_from(self.deck.concepts.len()).expect("few concepts");
        let id = *self.ids.entry(concept.clone()).or_insert(next);
        if id == next {
            self.deck.concepts.push(concept);
        }
        id
    }

    pub fn axiom(&mut self, axiom: Axiom) {
        self.deck.axioms.push(axiom);
    }

    /// A role's code, one in three an inverse.
    pub fn role(&mut self) -> u32 {
        let role = self.rng.below(self.deck.roles);
        2 * role + u32::from(self.rng.chance(1, 3))
    }

    /// A class as a concept.
    pub fn atomic(&mut self) -> u32 {
        let class = self.rng.below(self.deck.classes);
        self.concept(Concept::Atomic(class))
    }

    /// A list of two or more, of which one member of each is enough.
    pub fn list(&mut self, members: &[u32], of: fn(Vec<u32>) -> Concept) -> u32 {
        let mut members = members.to_vec();
        members.sort_unstable();
        members.dedup();
        match members[..] {
            [only] => only,
            _ => self.concept(of(members)),
        }
    }

    /// A class, or an individual, or a negated class, or a restriction over a class.
    pub fn any(&mut self) -> u32 {
        let part = self.atomic();
        let role = self.role();
        let n = self.rng.below(3);
        let concept = match self.rng.weighted(&[6, 2, 2, 2, 2, 2, 2, 2, 1]) {
            0 => return part,
            1 if self.deck.individuals > 0 => {
                Concept::Nominal(self.rng.below(self.deck.individuals))
            }
            1 | 2 => Concept::Not(part),
            3 => Concept::Some(role, part),
            4 => Concept::All(role, part),
            5 => Concept::Min(n + 1, role, part),
            6 => Concept::Max(n, role, part),
            7 => Concept::SelfRestriction(role),
            _ => Concept::Top,
        };
        self.concept(concept)
    }

    fn concepts(&mut self, length: u32) -> Vec<u32> {
        (0..length).map(|_| self.any()).collect()
    }

    fn roles(&mut self, length: u32) -> Vec<u32> {
        (0..length).map(|_| self.role()).collect()
    }

    /// An axiom of a kind. A list has any length up to 5.
    pub fn axiom_of(&mut self, kind: u32) -> Axiom {
        let length = self.rng.between(0, 5);
        match kind {
            21 => Axiom::SubClassOf(self.any(), self.any()),
            22 => Axiom::EquivalentClasses(self.concepts(length)),
            23 => Axiom::DisjointClasses(self.concepts(length)),
            24 => {
                let class = self.rng.below(self.deck.classes);
                Axiom::DisjointUnion(class, self.concepts(length))
            }
            25 => Axiom::Domain(self.role(), self.any()),
            26 => Axiom::Range(self.role(), self.any()),
            27 => {
                let length = self.chain_length();
                Axiom::Chain(self.role(), self.roles(length))
            }
            28 => Axiom::Transitive(self.role()),
            29 => Axiom::Irreflexive(self.role()),
            30 => Axiom::Asymmetric(self.role()),
            31 => Axiom::DisjointRoles(self.roles(length)),
            32 => Axiom::Inverse(self.role(), self.role()),
            33 => Axiom::RoleInclusion(self.role(), self.role()),
            34 => Axiom::EquivalentRoles(self.roles(length)),
            35 => Axiom::Reflexive(self.role()),
            _ if self.deck.individuals == 0 => Axiom::Reflexive(self.role()),
            _ => {
                let individual = self.rng.below(self.deck.individuals);
                Axiom::ClassAssertion(self.any(), individual)
            }
        }
    }

    fn chain_length(&mut self) -> u32 {
        match self.rng.below(20) {
            0 => 100,
            1 => 128,
            _ => self.rng.below(6),
        }
    }
}

fn few_names(rng: &mut Random) -> [u32; 3] {
    [rng.between(1, 4), rng.below(3), rng.between(1, 3)]
}

/// One axiom, of any kind.
pub fn one(rng: &mut Random) -> Deck {
    some_of(rng, 1)
}

/// A few, the same kind seldom twice.
pub fn few(rng: &mut Random) -> Deck {
    let count = rng.between(2, 6);
    some_of(rng, count)
}

/// One of each kind.
pub fn each(rng: &mut Random) -> Deck {
    some_of(rng, 16)
}

fn some_of(rng: &mut Random, count: u32) -> Deck {
    let names = few_names(rng);
    let mut make = Make::new(rng, names);
    let mut kinds: Vec<u32> = (21..=36).collect();
    make.rng.shuffle(&mut kinds);
    for &kind in kinds.iter().take(count as usize) {
        let axiom = make.axiom_of(kind);
        make.axiom(axiom);
    }
    make.deck
}

/// Inclusions with antecedents of one to five variables, as a path, a star, or any tree.
pub fn variables(rng: &mut Random) -> Deck {
    let names = few_names(rng);
    let mut make = Make::new(rng, names);
    for _ in 0..make.rng.between(1, 3) {
        let variables = 1 + u32::try_from(make.rng.weighted(&[2, 4, 6, 6, 1])).expect("up to 4");
        let sub = tree(&mut make, variables);
        let sup = head(&mut make, 2);
        make.axiom(Axiom::SubClassOf(sub, sup));
    }
    if make.rng.chance(1, 3) {
        let kind = make.rng.between(21, 36);
        let axiom = make.axiom_of(kind);
        make.axiom(axiom);
    }
    make.deck
}

/// A concept whose antecedent has so many variables, its own among them.
fn tree(make: &mut Make, variables: u32) -> u32 {
    let mut members = Vec::new();
    if variables == 1 || make.rng.chance(1, 2) {
        members.push(make.atomic());
    }
    let mut left = variables - 1;
    while left > 0 {
        let below = make.rng.between(1, left);
        left -= below;
        let part = tree(make, below);
        let role = make.role();
        members.push(make.concept(Concept::Some(role, part)));
    }
    make.list(&members, Concept::And)
}

/// A consequent: a class, a choice, or something along roles.
fn head(make: &mut Make, levels: u32) -> u32 {
    if levels == 0 {
        return make.any();
    }
    match make.rng.below(6) {
        0 | 1 => make.any(),
        2 => {
            let members = [(); 3].map(|()| head(make, 0));
            let members = members.map(|member| match make.deck.concepts[member as usize] {
                Concept::Top => make.atomic(),
                _ => member,
            });
            make.list(&members, Concept::Or)
        }
        3 => {
            let (role, part) = (make.role(), head(make, levels - 1));
            make.concept(Concept::All(role, part))
        }
        4 => {
            let (role, part) = (make.role(), head(make, levels - 1));
            make.concept(Concept::Some(role, part))
        }
        _ => {
            let (role, part) = (make.role(), head(make, levels - 1));
            let n = make.rng.below(3);
            make.concept(Concept::Max(n, role, part))
        }
    }
}

/// Chains and other axioms over roles alone.
pub fn chains(rng: &mut Random) -> Deck {
    let roles = rng.between(1, 3);
    let mut make = Make::new(rng, [1, 0, roles]);
    for _ in 0..make.rng.between(1, 3) {
        let axiom = make.axiom_of(27);
        make.axiom(axiom);
    }
    for _ in 0..make.rng.below(3) {
        let kind = *make.rng.pick(&[28, 30, 31, 32, 33, 34, 35]);
        let axiom = make.axiom_of(kind);
        make.axiom(axiom);
    }
    make.rng.shuffle(&mut make.deck.axioms);
    make.deck
}

/// Visits that double with each level, past one million.
pub fn visits(rng: &mut Random) -> Deck {
    let mut make = Make::new(rng, [1, 1, 2]);
    let mut last = make.atomic();
    for _ in 0..make.rng.between(19, 22) {
        let [first, second] = [make.role(), make.role()];
        let some = make.concept(Concept::Some(first, last));
        let all = make.concept(Concept::All(second, last));
        last = make.concept(Concept::And(vec![some, all]));
    }
    let kind = make.rng.between(21, 35);
    let axiom = make.axiom_of(kind);
    make.axiom(axiom);
    make.axiom(Axiom::ClassAssertion(last, 0));
    make.deck
}

/// A Max of the greatest bound, which 9 refuses.
pub fn greatest_bound(rng: &mut Random) -> Deck {
    let mut make = Make::new(rng, [2, 0, 1]);
    let (role, part) = (make.role(), make.atomic());
    let most = make.concept(Concept::Max(u32::MAX, role, part));
    make.axiom(Axiom::SubClassOf(part, most));
    make.deck
}

/// A choice of existences for each class of a choice, each with a name of its own: fresh ids up to 8,192 and more.
pub fn most_fresh(rng: &mut Random) -> Deck {
    let mut make = Make::new(rng, [66, 1, 128]);
    let classes: Vec<u32> = (0..64)
        .map(|class| make.concept(Concept::Atomic(class)))
        .collect();
    let sub = make.list(&classes, Concept::Or);
    let top = make.concept(Concept::Top);
    let existences: Vec<u32> = (0..128)
        .map(|role| make.concept(Concept::Some(2 * role, top)))
        .collect();
    let sup = make.list(&existences, Concept::Or);
    for _ in 0..make.rng.between(1, 2) {
        make.axiom(Axiom::SubClassOf(sub, sup));
    }
    make.deck
}

/// An existence of a compound at the last names there are: fresh ids from 8,192 on, or some below it.
pub fn most_names(rng: &mut Random) -> Deck {
    let individuals = 4_096 - *rng.pick(&[0, 0, 0, 1, 2, 3]);
    let mut make = Make::new(rng, [4_096, individuals, 2]);
    let last = [4_094, 4_095, 0].map(|class| make.concept(Concept::Atomic(class)));
    let individual = make.concept(Concept::Nominal(individuals - 1));
    for _ in 0..make.rng.between(2, 4) {
        let pair = [*make.rng.pick(&last), *make.rng.pick(&last), individual];
        let compound = make.list(&pair, Concept::And);
        let compound = if make.rng.chance(1, 3) {
            make.list(&pair, Concept::Or)
        } else {
            compound
        };
        let role = make.role();
        let head = match make.rng.below(3) {
            0 => Concept::Max(1, role, compound),
            _ => Concept::Some(role, compound),
        };
        let head = make.concept(head);
        let sub = *make.rng.pick(&last);
        make.axiom(Axiom::SubClassOf(sub, head));
    }
    make.deck
}
