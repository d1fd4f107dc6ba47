//! Decks like those of a junction: a taxonomy of equipment and states, with rules between them.
//!
//! With 900 axioms a deck has 300 classes, 60 individuals, 40 roles and 38 to 55 KB. A third of the axioms are the
//! taxonomy; the others are drawn by the weights below, with more or fewer plain inclusions among them.

use deck::Axiom;
use deck::random::Random;

use crate::draft::Draft;

/// How often each form of axiom comes beside the taxonomy.
const FORMS: [(u32, Form); 26] = [
    (18, Form::Has),
    (2, Form::HasBoth),
    (7, Form::Only),
    (2, Form::OnlyEither),
    (6, Form::AtMost),
    (4, Form::AtLeast),
    (2, Form::Functional),
    (3, Form::Covered),
    (2, Form::Excluded),
    (2, Form::HasIndividual),
    (6, Form::RuleOfOne),
    (3, Form::RuleOfTwo),
    (2, Form::RuleOfEither),
    (2, Form::RuleUnless),
    (1, Form::RuleOfAll),
    (1, Form::RuleOfMany),
    (5, Form::Definition),
    (5, Form::Disjoint),
    (1, Form::Union),
    (7, Form::Domain),
    (7, Form::Range),
    (4, Form::SubRole),
    (2, Form::InverseRole),
    (4, Form::RoleRule),
    (10, Form::Assertion),
    (3, Form::RelatedAssertion),
];

/// What an axiom looks like.
#[derive(Clone, Copy, Debug, PartialEq, Eq)]
pub enum Form {
    /// A below B, beside the taxonomy.
    Also,
    /// A below Some r B.
    Has,
    /// A below Some r (B and C).
    HasBoth,
    /// A below All r B.
    Only,
    /// A below All r (B or C).
    OnlyEither,
    AtMost,
    AtLeast,
    /// A below Max 1 r Top.
    Functional,
    /// A below B or C or D.
    Covered,
    /// A below Not B.
    Excluded,
    /// A below Some r {i}.
    HasIndividual,
    /// A and Some r B below C.
    RuleOfOne,
    /// Some r A and Some s B below C.
    RuleOfTwo,
    /// (A or B) and Some r C below D.
    RuleOfEither,
    /// A and Not B below C.
    RuleUnless,
    /// A and All r B below C.
    RuleOfAll,
    /// An interlocking rule with 8 to 10 conditions along roles.
    RuleOfMany,
    /// A is B and Some r C.
    Definition,
    /// 3 to 6 siblings.
    Disjoint,
    /// A class is the disjoint union of 2 to 5.
    Union,
    Domain,
    Range,
    SubRole,
    InverseRole,
    /// Chain of two, transitive, irreflexive, asymmetric or disjoint roles.
    RoleRule,
    /// A of an individual.
    Assertion,
    /// Some r {j} of an individual.
    RelatedAssertion,
}

/// A deck of so many axioms.
pub fn realistic(seed: u64, axioms: u32) -> Vec<u8> {
    let mut junction = Junction::new(seed, axioms);
    while junction.draft.axioms() < axioms as usize {
        let form = junction.form();
        if let Some(axiom) = junction.draw(form) {
            junction.add(axiom);
        }
    }
    junction.draft.bytes()
}

/// A deck in the making, which begins with its taxonomy.
pub struct Junction {
    pub rng: Random,
    pub draft: Draft,
    classes: u32,
    individuals: u32,
    roles: u32,
    /// The weight of plain inclusions.
    plain: u32,
    /// Roles that stand in an inverse pair.
    paired: Vec<u32>,
}

impl Junction {
    pub fn new(seed: u64, axioms: u32) -> Self {
        let classes = (axioms / 3).max(6);
        let individuals = (axioms / 15).max(2);
        let roles = (axioms * 2 / 45).max(3);
        let mut rng = Random::new(seed);
        let plain = rng.between(10, 1200);
        let mut junction = Self {
            rng,
            draft: Draft::new(classes, individuals, roles),
            classes,
            individuals,
            roles,
            plain,
            paired: Vec::new(),
        };
        junction.taxonomy();
        junction
    }

    /// A form, by its weight.
    pub fn form(&mut self) -> Form {
        let mut forms = FORMS.to_vec();
        forms.push((self.plain, Form::Also));
        let weights: Vec<u32> = forms.iter().map(|&(weight, _)| weight).collect();
        forms[self.rng.weighted(&weights)].1
    }

    /// Each class but the first below an earlier one, a tree of a few levels. A class's concept has its number.
    fn taxonomy(&mut self) {
        for class in 0..self.classes {
            self.draft.class(class);
        }
        for class in 1..self.classes {
            let above = self.rng.below(class.div_ceil(4));
            let (sub, sup) = (self.draft.class(class), self.draft.class(above));
            self.draft.below(sub, sup);
        }
    }

    /// The concept of a class.
    fn class(&mut self) -> u32 {
        let class = self.rng.below(self.classes);
        self.draft.class(class)
    }

    /// So many different classes that follow one another, as siblings do.
    fn siblings(&mut self, low: u32, high: u32) -> Vec<u32> {
        let count = self.rng.between(low, high).min(self.classes);
        let first = self.rng.below(self.classes - count + 1);
        self.draft.classes(first, first + count)
    }

    /// A role code, one in ten an inverse.
    fn role(&mut self) -> u32 {
        2 * self.rng.below(self.roles) + u32::from(self.rng.chance(1, 10))
    }

    /// A role and one of the three classes that it leads to.
    fn path(&mut self) -> (u32, u32) {
        let role = self.role();
        let filler = (role / 2 * 37 + self.rng.below(3)) % self.classes;
        (role, self.draft.class(filler))
    }

    fn some(&mut self) -> u32 {
        let (role, filler) = self.path();
        self.draft.some(role, filler)
    }

    /// Some along the individual's own role to it.
    fn some_individual(&mut self) -> u32 {
        let individual = self.rng.below(self.individuals);
        let one = self.draft.nominal(individual);
        self.draft.some(2 * (individual % self.roles), one)
    }

    /// An axiom of that form; none where the roles of an inverse pair are not two, or stand in another.
    pub fn draw(&mut self, form: Form) -> Option<Axiom> {
        if let Form::InverseRole = form {
            return self.inverse();
        }
        let axiom = self.axiom(form).unwrap_or_else(|| {
            let (sub, sup) = self.inclusion(form);
            Axiom::SubClassOf(sub, sup)
        });
        Some(axiom)
    }

    pub fn add(&mut self, axiom: Axiom) {
        if let Axiom::Inverse(first, second) = axiom {
            self.paired.extend([first / 2, second / 2]);
        }
        self.draft.axiom(axiom);
    }

    /// An axiom of that form, if it is no inclusion.
    fn axiom(&mut self, form: Form) -> Option<Axiom> {
        let axiom = match form {
            Form::Domain => Axiom::Domain(self.role(), self.class()),
            Form::Range => {
                let (role, filler) = self.path();
                Axiom::Range(role, filler)
            }
            Form::Definition => {
                let parts = [self.class(), self.some()];
                let whole = self.draft.and(&parts);
                Axiom::EquivalentClasses(vec![self.class(), whole])
            }
            Form::Disjoint => Axiom::DisjointClasses(self.siblings(3, 6)),
            Form::Union => Axiom::DisjointUnion(self.rng.below(self.classes), self.siblings(2, 5)),
            Form::SubRole => Axiom::RoleInclusion(self.role(), self.role()),
            Form::RoleRule => self.role_rule(),
            Form::Assertion => {
                Axiom::ClassAssertion(self.class(), self.rng.below(self.individuals))
            }
            Form::RelatedAssertion => {
                let related = self.some_individual();
                Axiom::ClassAssertion(related, self.rng.below(self.individuals))
            }
            _ => return None,
        };
        Some(axiom)
    }

    /// The two sides of an inclusion.
    fn inclusion(&mut self, form: Form) -> (u32, u32) {
        match form {
            Form::RuleOfOne
            | Form::RuleOfTwo
            | Form::RuleOfEither
            | Form::RuleUnless
            | Form::RuleOfAll
            | Form::RuleOfMany => (self.condition(form), self.class()),
            Form::Also => (self.class(), self.class()),
            _ => (self.class(), self.consequence(form)),
        }
    }

    fn condition(&mut self, form: Form) -> u32 {
        let parts = match form {
            Form::RuleOfOne => vec![self.class(), self.some()],
            Form::RuleOfTwo => vec![self.some(), self.some()],
            Form::RuleOfEither => {
                let either = self.siblings(2, 3);
                vec![self.draft.or(&either), self.some()]
            }
            Form::RuleUnless => {
                let other = self.class();
                vec![self.class(), self.draft.not(other)]
            }
            Form::RuleOfAll => {
                let (role, filler) = self.path();
                vec![self.class(), self.draft.all(role, filler)]
            }
            _ => {
                let conditions = self.rng.between(8, 10);
                (0..conditions).map(|_| self.some()).collect()
            }
        };
        self.draft.and(&parts)
    }

    fn consequence(&mut self, form: Form) -> u32 {
        let (role, filler) = self.path();
        match form {
            Form::HasBoth => {
                let both = [filler, self.class()];
                let both = self.draft.and(&both);
                self.draft.some(role, both)
            }
            Form::Only => self.draft.all(role, filler),
            Form::OnlyEither => {
                let either = self.siblings(2, 3);
                let either = self.draft.or(&either);
                self.draft.all(role, either)
            }
            Form::AtMost => {
                let n = self.rng.between(0, 3);
                self.draft.max(n, role, filler)
            }
            Form::AtLeast => {
                let n = self.rng.between(1, 3);
                self.draft.min(n, role, filler)
            }
            Form::Functional => {
                let top = self.draft.top();
                self.draft.max(1, role, top)
            }
            Form::Covered => {
                let either = self.siblings(2, 4);
                self.draft.or(&either)
            }
            Form::Excluded => {
                let other = self.class();
                self.draft.not(other)
            }
            Form::HasIndividual => self.some_individual(),
            _ => self.draft.some(role, filler),
        }
    }

    /// A pair of roles that stand in no other pair.
    fn inverse(&mut self) -> Option<Axiom> {
        let (first, second) = (self.rng.below(self.roles), self.rng.below(self.roles));
        let is_paired = |role| self.paired.contains(&role);
        let is_pair = first != second && !is_paired(first) && !is_paired(second);
        is_pair.then_some(Axiom::Inverse(2 * first, 2 * second))
    }

    fn role_rule(&mut self) -> Axiom {
        let role = self.role();
        match self.rng.below(6) {
            0 | 1 => Axiom::Chain(role, vec![self.role(), self.role()]),
            2 => Axiom::Transitive(role),
            3 => Axiom::Irreflexive(role),
            4 => Axiom::Asymmetric(role),
            _ => Axiom::DisjointRoles(vec![role, self.role()]),
        }
    }
}
