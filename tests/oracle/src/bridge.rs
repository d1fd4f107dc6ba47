// The text of two modules. In each, `library` is a build of the clausifier: the original, or its instrumented copy.
// The pool of either would make Top of a Min 0 line, and perhaps at the line's own id, so such a line never reaches `min`.

use std::collections::HashSet;

use library::clause::{Atom, ClauseStats, DlClause};
use library::ir::{ClassId, ConceptExpr, ConceptId, ConceptPool, IndividualId, Role, RoleId};
use library::ontology::{Axiom, InternalOntology, SubRolePath};
use library::vocab::Vocabulary;

/// Holds a Min 0 line, for which the pool has no constructor, or answers `None`.
pub type MinZero = fn(&mut ConceptPool, Role, ConceptId) -> Option<ConceptId>;

/// The deck as an ontology, concept line k at pool id k; `None` where the pool cannot hold a line.
pub fn load(deck: &deck::Deck, min_zero: MinZero) -> Option<InternalOntology> {
    let mut ontology = InternalOntology::new();
    declare(deck, &mut ontology.vocabulary);
    for (line, concept) in (0..).zip(&deck.concepts) {
        let id = intern(concept, &mut ontology.concepts, min_zero)?;
        assert_eq!(
            id.index(),
            line,
            "{concept:?} is not held as a record of its own"
        );
    }
    ontology.axioms = deck.axioms.iter().map(axiom).collect();
    Some(ontology)
}

fn declare(deck: &deck::Deck, vocabulary: &mut Vocabulary) {
    let keys: HashSet<u32> = deck.keys.iter().copied().collect();
    for class in 0..deck.classes {
        let prefix = if keys.contains(&class) {
            library::KEY
        } else {
            "class:"
        };
        vocabulary.intern_class(&format!("{prefix}{class}"));
    }
    for individual in 0..deck.individuals {
        vocabulary.intern_individual(&format!("individual:{individual}"));
    }
    for role in 0..deck.roles {
        vocabulary.intern_role(&format!("role:{role}"));
    }
}

fn intern(concept: &deck::Concept, pool: &mut ConceptPool, min_zero: MinZero) -> Option<ConceptId> {
    use deck::Concept;
    Some(match *concept {
        Concept::Top => pool.top(),
        Concept::Bot => pool.bot(),
        Concept::Atomic(class) => pool.atomic(ClassId::new(class)),
        Concept::Nominal(individual) => pool.nominal(IndividualId::new(individual)),
        Concept::SelfRestriction(code) => pool.self_restriction(role(code)),
        Concept::Not(part) => pool.not(ConceptId::new(part)),
        Concept::And(ref list) => pool.and(ids(list)),
        Concept::Or(ref list) => pool.or(ids(list)),
        Concept::Some(code, part) => pool.some(role(code), ConceptId::new(part)),
        Concept::All(code, part) => pool.all(role(code), ConceptId::new(part)),
        Concept::Min(0, code, part) => min_zero(pool, role(code), ConceptId::new(part))?,
        Concept::Min(n, code, part) => pool.min(n, role(code), ConceptId::new(part)),
        Concept::Max(n, code, part) => pool.max(n, role(code), ConceptId::new(part)),
    })
}

fn axiom(axiom: &deck::Axiom) -> Axiom {
    use deck::Axiom as Line;
    let id = ConceptId::new;
    match *axiom {
        Line::SubClassOf(sub, sup) => Axiom::SubClassOf {
            sub: id(sub),
            sup: id(sup),
        },
        Line::EquivalentClasses(ref list) => Axiom::EquivalentClasses(ids(list)),
        Line::DisjointClasses(ref list) => Axiom::DisjointClasses(ids(list)),
        Line::DisjointUnion(class, ref list) => Axiom::DisjointUnion {
            class: ClassId::new(class),
            members: ids(list),
        },
        Line::Domain(code, c) => Axiom::ObjectPropertyDomain {
            role: role(code),
            domain: id(c),
        },
        Line::Range(code, c) => Axiom::ObjectPropertyRange {
            role: role(code),
            range: id(c),
        },
        Line::Chain(sup, ref parts) => inclusion(SubRolePath::Chain(roles(parts)), sup),
        Line::Transitive(code) => Axiom::TransitiveRole(role(code)),
        Line::Irreflexive(code) => Axiom::IrreflexiveRole(role(code)),
        Line::Asymmetric(code) => Axiom::AsymmetricRole(role(code)),
        Line::DisjointRoles(ref list) => Axiom::DisjointObjectProperties(roles(list)),
        Line::Inverse(first, second) => Axiom::InverseObjectProperties(role(first), role(second)),
        Line::RoleInclusion(sub, sup) => inclusion(SubRolePath::Role(role(sub)), sup),
        Line::EquivalentRoles(ref list) => Axiom::EquivalentObjectProperties(roles(list)),
        Line::Reflexive(code) => Axiom::ReflexiveRole(role(code)),
        Line::ClassAssertion(c, individual) => Axiom::ClassAssertion {
            class: id(c),
            individual: IndividualId::new(individual),
        },
    }
}

fn inclusion(sub: SubRolePath, sup: u32) -> Axiom {
    Axiom::SubObjectPropertyOf {
        sub,
        sup: role(sup),
    }
}

fn ids(list: &[u32]) -> Vec<ConceptId> {
    list.iter().map(|&part| ConceptId::new(part)).collect()
}

fn roles(list: &[u32]) -> Vec<Role> {
    list.iter().map(|&code| role(code)).collect()
}

fn role(code: u32) -> Role {
    let id = RoleId::new(code / 2);
    if code % 2 == 1 {
        Role::inverse(id)
    } else {
        Role::named(id)
    }
}

fn code(role: Role) -> u32 {
    2 * role.role_id().index() + u32::from(role.is_inverse())
}

/// A record of the pool as a deck's line.
pub fn concept(expr: &ConceptExpr) -> deck::Concept {
    use deck::Concept;
    match *expr {
        ConceptExpr::Top => Concept::Top,
        ConceptExpr::Bot => Concept::Bot,
        ConceptExpr::Atomic(class) => Concept::Atomic(class.index()),
        ConceptExpr::Nominal(individual) => Concept::Nominal(individual.index()),
        ConceptExpr::SelfRestriction(role) => Concept::SelfRestriction(code(role)),
        ConceptExpr::Not(part) => Concept::Not(part.index()),
        ConceptExpr::And(ref list) => Concept::And(numbers(list)),
        ConceptExpr::Or(ref list) => Concept::Or(numbers(list)),
        ConceptExpr::Some(role, part) => Concept::Some(code(role), part.index()),
        ConceptExpr::All(role, part) => Concept::All(code(role), part.index()),
        ConceptExpr::Min(n, role, part) => Concept::Min(n, code(role), part.index()),
        ConceptExpr::Max(n, role, part) => Concept::Max(n, code(role), part.index()),
    }
}

/// An axiom as a deck's line.
pub fn line(axiom: &Axiom) -> deck::Axiom {
    use deck::Axiom as Line;
    match *axiom {
        Axiom::SubClassOf { sub, sup } => Line::SubClassOf(sub.index(), sup.index()),
        Axiom::EquivalentClasses(ref list) => Line::EquivalentClasses(numbers(list)),
        Axiom::DisjointClasses(ref list) => Line::DisjointClasses(numbers(list)),
        Axiom::DisjointUnion { class, ref members } => {
            Line::DisjointUnion(class.index(), numbers(members))
        }
        Axiom::ObjectPropertyDomain { role, domain } => Line::Domain(code(role), domain.index()),
        Axiom::ObjectPropertyRange { role, range } => Line::Range(code(role), range.index()),
        Axiom::SubObjectPropertyOf {
            sub: SubRolePath::Chain(ref parts),
            sup,
        } => Line::Chain(code(sup), codes(parts)),
        Axiom::SubObjectPropertyOf {
            sub: SubRolePath::Role(sub),
            sup,
        } => Line::RoleInclusion(code(sub), code(sup)),
        Axiom::TransitiveRole(role) => Line::Transitive(code(role)),
        Axiom::IrreflexiveRole(role) => Line::Irreflexive(code(role)),
        Axiom::AsymmetricRole(role) => Line::Asymmetric(code(role)),
        Axiom::DisjointObjectProperties(ref list) => Line::DisjointRoles(codes(list)),
        Axiom::InverseObjectProperties(first, second) => Line::Inverse(code(first), code(second)),
        Axiom::EquivalentObjectProperties(ref list) => Line::EquivalentRoles(codes(list)),
        Axiom::ReflexiveRole(role) => Line::Reflexive(code(role)),
        Axiom::ClassAssertion { class, individual } => {
            Line::ClassAssertion(class.index(), individual.index())
        }
        ref other => panic!("no deck has a line for {other:?}"),
    }
}

fn numbers(list: &[ConceptId]) -> Vec<u32> {
    list.iter().map(|id| id.index()).collect()
}

fn codes(list: &[Role]) -> Vec<u32> {
    list.iter().map(|&role| code(role)).collect()
}

/// The pool's records and the axioms, as lines.
pub fn lines(pool: &ConceptPool, axioms: &[Axiom]) -> crate::Normalised {
    (
        pool.iter_exprs().map(concept).collect(),
        axioms.iter().map(line).collect(),
    )
}

pub fn clause(clause: &DlClause) -> crate::Clause {
    let words = |atoms: &[Atom]| atoms.iter().map(words).collect();
    crate::Clause {
        body: words(&clause.body),
        head: words(&clause.head),
    }
}

fn words(atom: &Atom) -> [u32; 6] {
    let class = |id: ClassId| id.index() + 1;
    match *atom {
        Atom::Class(id, v) => [1, 0, class(id), 0, v, 0],
        Atom::Role(role, u, v) => [2, code(role), 0, 0, u, v],
        Atom::Exists(role, id, v) => [3, code(role), class(id), 0, v, 0],
        Atom::AtMost(role, id, n, v) => [4, code(role), id.map_or(0, class), n, v, 0],
        Atom::AtLeast(role, id, n, v) => [5, code(role), id.map_or(0, class), n, v, 0],
        Atom::Equal(u, v) => [6, 0, 0, 0, u, v],
    }
}

/// The statistics in their order.
pub fn stats(stats: &ClauseStats) -> [u32; 8] {
    let ClauseStats {
        total,
        horn,
        disjunctive,
        bottom_headed,
        with_exists_head,
        deferred,
        decomposed,
        refused,
    } = *stats;
    [
        total,
        horn,
        disjunctive,
        bottom_headed,
        with_exists_head,
        deferred,
        decomposed,
        refused,
    ]
    .map(crate::number)
}
