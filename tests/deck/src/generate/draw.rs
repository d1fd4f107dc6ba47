//! Random names, concepts and axioms for a deck in the making.

use super::builder::Builder;
use crate::Axiom;

/// How often each kind comes, and how long lists grow.
#[derive(Clone)]
pub struct Taste {
    /// From kind 1, Top.
    pub concepts: [u32; 12],
    /// From kind 21, the inclusion.
    pub axioms: [u32; 16],
    /// The longest list.
    pub list: u32,
    /// Whether Min lines have number 0, half of them.
    pub min_zero: bool,
}

/// Every kind often.
pub const EVEN: Taste = Taste {
    concepts: [1, 1, 5, 2, 1, 3, 4, 4, 5, 4, 3, 3],
    axioms: [12, 3, 3, 3, 3, 3, 2, 2, 2, 2, 2, 2, 2, 2, 3, 2],
    list: 4,
    min_zero: false,
};

impl Builder<'_> {
    pub fn class(&mut self) -> u32 {
        let classes = self.deck().classes;
        self.rng.below(classes)
    }

    pub fn individual(&mut self) -> u32 {
        let individuals = self.deck().individuals;
        self.rng.below(individuals)
    }

    /// A role code, one in three an inverse.
    pub fn role(&mut self) -> u32 {
        let named = self.named_role();
        named + u32::from(self.rng.chance(1, 3))
    }

    /// The code of a role as named.
    pub fn named_role(&mut self) -> u32 {
        let roles = self.deck().roles;
        2 * self.rng.below(roles)
    }

    /// The concept of a class.
    pub fn any_atomic(&mut self) -> u32 {
        let class = self.class();
        self.atomic(class)
    }

    /// A concept so far, later ones oftener.
    pub fn any(&mut self) -> u32 {
        let concepts = self.len();
        let first = self.rng.below(concepts);
        first.max(self.rng.below(concepts))
    }

    /// The number of a Min, seldom the greatest there is.
    pub fn at_least(&mut self) -> u32 {
        if self.rng.chance(1, 25) {
            u32::MAX
        } else {
            *self.rng.pick(&[1, 1, 2, 2, 3])
        }
    }

    /// The number of a Max, seldom the greatest that a deck may have.
    pub fn at_most(&mut self) -> u32 {
        if self.rng.chance(1, 25) {
            u32::MAX - 1
        } else {
            *self.rng.pick(&[0, 0, 1, 1, 2, 3])
        }
    }

    /// A Min or a Max over the filler.
    pub fn cardinality(&mut self, role: u32, filler: u32) -> u32 {
        if self.rng.chance(1, 2) {
            let n = self.at_least();
            self.min(n, role, filler)
        } else {
            let n = self.at_most();
            self.max(n, role, filler)
        }
    }

    /// Draws concepts until there are `lines` of them, or chance has repeated itself too often.
    pub fn random_concepts(&mut self, lines: u32, taste: &Taste) {
        for _ in 0..4 * lines {
            if self.len() >= lines {
                break;
            }
            self.random_concept(taste);
        }
    }

    pub fn random_axioms(&mut self, count: u32, taste: &Taste) {
        for _ in 0..count {
            let axiom = self.random_axiom(taste);
            self.axiom(axiom);
        }
    }

    /// A concept over the concepts so far.
    pub fn random_concept(&mut self, taste: &Taste) -> u32 {
        let mut weights = taste.concepts;
        self.mask_names(&mut weights);
        if self.len() == 0 {
            weights[5..].fill(0);
        }
        match self.rng.weighted(&weights) + 1 {
            kind @ 1..=5 => self.leaf(kind),
            7 => {
                let members = self.members(taste);
                self.and(&members)
            }
            8 => {
                let members = self.members(taste);
                self.or(&members)
            }
            kind => {
                let part = self.any();
                self.around(kind, part, taste)
            }
        }
    }

    /// A concept of kind 1 to 5.
    fn leaf(&mut self, kind: usize) -> u32 {
        match kind {
            1 => self.top(),
            2 => self.bot(),
            3 => self.any_atomic(),
            4 => {
                let individual = self.individual();
                self.nominal(individual)
            }
            _ => {
                let role = self.role();
                self.self_restriction(role)
            }
        }
    }

    /// A concept of kind 6 or 9 to 12 over its part.
    pub fn around(&mut self, kind: usize, part: u32, taste: &Taste) -> u32 {
        if kind == 6 {
            return self.not(part);
        }
        let role = self.role();
        match kind {
            9 => self.some(role, part),
            10 => self.all(role, part),
            11 => {
                let zero = taste.min_zero && self.rng.chance(1, 2);
                let n = if zero { 0 } else { self.at_least() };
                self.min(n, role, part)
            }
            _ => {
                let n = self.at_most();
                self.max(n, role, part)
            }
        }
    }

    /// A concept with at most so many levels below it, made for itself.
    pub fn tree(&mut self, levels: u32, taste: &Taste) -> u32 {
        let mut weights = taste.concepts;
        self.mask_names(&mut weights);
        if levels == 0 {
            weights[5..].fill(0);
        }
        match self.rng.weighted(&weights) + 1 {
            kind @ 1..=5 => self.leaf(kind),
            kind @ (7 | 8) => {
                let count = self.rng.between(2, 3);
                let members: Vec<u32> = (0..count).map(|_| self.tree(levels - 1, taste)).collect();
                if kind == 7 {
                    self.and(&members)
                } else {
                    self.or(&members)
                }
            }
            kind => {
                let part = self.tree(levels - 1, taste);
                self.around(kind, part, taste)
            }
        }
    }

    /// Two or more concepts for an And or Or.
    fn members(&mut self, taste: &Taste) -> Vec<u32> {
        let count = self.rng.between(2, taste.list.max(2));
        (0..count).map(|_| self.any()).collect()
    }

    /// Leaves out the concept kinds for which there is no name.
    fn mask_names(&self, weights: &mut [u32; 12]) {
        for (kind, weight) in (1..).zip(weights) {
            let possible = match kind {
                3 => self.deck().classes > 0,
                4 => self.deck().individuals > 0,
                5 | 9..=12 => self.deck().roles > 0,
                _ => true,
            };
            *weight *= u32::from(possible);
        }
    }

    pub fn random_axiom(&mut self, taste: &Taste) -> Axiom {
        let mut weights = taste.axioms;
        self.mask_axioms(&mut weights);
        match self.rng.weighted(&weights) + 21 {
            21 => Axiom::SubClassOf(self.any(), self.any()),
            22 => Axiom::EquivalentClasses(self.concept_list(taste)),
            23 => Axiom::DisjointClasses(self.concept_list(taste)),
            24 => Axiom::DisjointUnion(self.class(), self.concept_list(taste)),
            25 => Axiom::Domain(self.role(), self.any()),
            26 => Axiom::Range(self.role(), self.any()),
            36 => Axiom::ClassAssertion(self.any(), self.individual()),
            kind => self.random_role_axiom(kind, taste),
        }
    }

    fn random_role_axiom(&mut self, kind: usize, taste: &Taste) -> Axiom {
        match kind {
            27 => {
                let two = self.rng.chance(1, 2);
                let parts = if two {
                    vec![self.role(), self.role()]
                } else {
                    self.role_list(taste)
                };
                Axiom::Chain(self.role(), parts)
            }
            28 => Axiom::Transitive(self.role()),
            29 => Axiom::Irreflexive(self.role()),
            30 => Axiom::Asymmetric(self.role()),
            31 => Axiom::DisjointRoles(self.role_list(taste)),
            32 => self.inverse(),
            33 => Axiom::RoleInclusion(self.role(), self.role()),
            34 => Axiom::EquivalentRoles(self.role_list(taste)),
            _ => Axiom::Reflexive(self.role()),
        }
    }

    /// Mostly of two roles as named, the only ones that the map takes up.
    fn inverse(&mut self) -> Axiom {
        if self.rng.chance(3, 4) {
            Axiom::Inverse(self.named_role(), self.named_role())
        } else {
            Axiom::Inverse(self.role(), self.role())
        }
    }

    /// Leaves out the axiom kinds for which a name or a concept is missing.
    fn mask_axioms(&self, weights: &mut [u32; 16]) {
        let has_concept = self.len() > 0;
        let has_role = self.deck().roles > 0;
        for (kind, weight) in (21..).zip(weights) {
            let possible = match kind {
                21 => has_concept,
                24 => self.deck().classes > 0,
                25 | 26 => has_concept && has_role,
                27..=30 | 32 | 33 | 35 => has_role,
                36 => has_concept && self.deck().individuals > 0,
                _ => true,
            };
            *weight *= u32::from(possible);
        }
    }

    fn list_length(&mut self, taste: &Taste) -> u32 {
        if self.rng.chance(1, 6) {
            self.rng.below(2)
        } else {
            self.rng.between(2, taste.list)
        }
    }

    /// An axiom's list of concepts, one in three of classes alone; empty where there is no concept.
    fn concept_list(&mut self, taste: &Taste) -> Vec<u32> {
        let length = if self.len() == 0 {
            0
        } else {
            self.list_length(taste)
        };
        let of_classes = self.deck().classes > 0 && self.rng.chance(1, 3);
        (0..length)
            .map(|_| {
                if of_classes {
                    self.any_atomic()
                } else {
                    self.any()
                }
            })
            .collect()
    }

    /// An axiom's list of roles, empty where there is none.
    fn role_list(&mut self, taste: &Taste) -> Vec<u32> {
        let length = if self.deck().roles == 0 {
            0
        } else {
            self.list_length(taste)
        };
        (0..length).map(|_| self.role()).collect()
    }
}
