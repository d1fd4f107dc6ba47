//! Decks at the limits that lead into each recursion: concepts that nest 64 deep in every shape, on every side of an axiom;
//! wide bodies whose tree is a long path; lists of 128; one chain of all roles.

use deck::{Axiom, Concept, Deck};

/// Nesting that a deck may have.
const DEPTH: u32 = 64;

/// A deck with what it dwells on.
pub struct Named {
    pub name: String,
    pub deck: Deck,
}

/// A concept around another one; the number says how far up it stands.
type Around = fn(u32, u32) -> Concept;

/// Shapes of a path of concepts.
const SHAPES: [(&str, Around); 14] = [
    ("Some", |c, _| some(c)),
    ("All", |c, _| all(c)),
    ("Min", |c, _| min(c)),
    ("Max", |c, _| max(c)),
    ("Not", |c, _| Concept::Not(c)),
    ("And, Or", |c, level| turn(level, and(c), or(c))),
    ("Or, And", |c, level| turn(level, or(c), and(c))),
    ("Some, All", |c, level| turn(level, some(c), all(c))),
    ("Not, Some", |c, level| {
        turn(level, Concept::Not(c), some(c))
    }),
    ("Some, And", |c, level| turn(level, some(c), and(c))),
    ("Some, Or", |c, level| turn(level, some(c), or(c))),
    ("All, Or", |c, level| turn(level, all(c), or(c))),
    ("Max, Or", |c, level| turn(level, max(c), or(c))),
    ("Min, And", |c, level| turn(level, min(c), and(c))),
];

fn some(part: u32) -> Concept {
    Concept::Some(0, part)
}

fn all(part: u32) -> Concept {
    Concept::All(0, part)
}

fn min(part: u32) -> Concept {
    Concept::Min(2, 0, part)
}

fn max(part: u32) -> Concept {
    Concept::Max(1, 0, part)
}

/// The And of a concept and the class of line 1.
fn and(part: u32) -> Concept {
    Concept::And(with_class(part))
}

/// Likewise the Or.
fn or(part: u32) -> Concept {
    Concept::Or(with_class(part))
}

fn with_class(part: u32) -> Vec<u32> {
    vec![part.min(1), part.max(1)]
}

/// Axioms with a concept in each place that it can have; the other concept is a class.
fn places(concept: u32, class: u32) -> [(&'static str, Axiom); 7] {
    [
        ("on the left", Axiom::SubClassOf(concept, class)),
        ("on the right", Axiom::SubClassOf(class, concept)),
        ("on both sides", Axiom::SubClassOf(concept, concept)),
        ("equivalent", Axiom::EquivalentClasses(vec![class, concept])),
        ("disjoint", Axiom::DisjointClasses(vec![concept, concept])),
        ("as a range", Axiom::Range(0, concept)),
        ("in a union", Axiom::DisjointUnion(0, vec![concept, class])),
    ]
}

/// Every deck.
#[must_use]
pub fn decks() -> Vec<Named> {
    let mut decks = paths();
    decks.extend(wide_bodies());
    decks.extend(lists());
    decks.push(one_chain());
    decks
}

/// A role that is followed through as many declarations as there are roles for.
fn one_chain() -> Named {
    let mut lines = Lines::default();
    let class = lines.add(Concept::Atomic(0));
    let name = "1,023 inverses in one chain".into();
    let mut named = lines.named(name, 15, Axiom::Range(0, class));
    named.deck.roles = 1_024;
    let chain = (0..1_023).map(|role| Axiom::Inverse(2 * (role + 1), 2 * role));
    named.deck.axioms.extend(chain);
    named
}

/// Each shape 64 deep, in each place, with no option, with those of the Rust, and with all.
fn paths() -> Vec<Named> {
    let mut decks = Vec::new();
    for (shape, around) in SHAPES {
        let (lines, whole) = Lines::nested(around);
        for (place, axiom) in places(whole, 1) {
            for options in [0, 3, 15] {
                let name = format!("{shape}, {place}, options {options}");
                decks.push(lines.named(name, options, axiom.clone()));
            }
        }
    }
    decks
}

/// A path of Somes that ends in a node with many children, so that it is wide all the way down, and a path of Alls below a
/// range, which is longer by one.
fn wide_bodies() -> Vec<Named> {
    let mut decks: Vec<Named> = [9, 97].map(wide_end).into();
    let mut lines = Lines::default();
    let mut concept = lines.add(Concept::Bot);
    for _ in 1..DEPTH {
        concept = lines.add(all(concept));
    }
    decks.push(lines.named("a path of Alls to Bot".into(), 3, Axiom::Range(0, concept)));
    decks
}

fn wide_end(children: u32) -> Named {
    let mut lines = Lines::default();
    let class = lines.add(Concept::Atomic(0));
    let ends = (1..=children).map(|role| lines.add(Concept::Some(2 * role, class)));
    let ends = ends.collect();
    let mut concept = lines.add(Concept::And(ends));
    for _ in 3..DEPTH {
        concept = lines.add(some(concept));
    }
    let name = format!("a path of Somes to {children} Somes");
    lines.named(name, 3, Axiom::SubClassOf(concept, class))
}

/// Lists of 128: And and Or nested as deep as the deck's bytes allow, and axioms over 128 concepts.
fn lists() -> Vec<Named> {
    let mut lines = Lines::default();
    let classes = (0..127).map(|class| lines.add(Concept::Atomic(class)));
    let classes: Vec<u32> = classes.collect();
    let mut concept = lines.add(Concept::Atomic(127));
    for level in 0..40 {
        let list = [&classes[..], &[concept]].concat();
        concept = lines.add(turn(level, Concept::And(list.clone()), Concept::Or(list)));
    }
    let nested = [Axiom::SubClassOf(concept, 0), Axiom::SubClassOf(0, concept)];
    let mut decks: Vec<Named> = nested
        .map(|axiom| lines.named("And and Or of 128".into(), 3, axiom))
        .into();
    let (lines, whole) = Lines::nested(|part, _| some(part));
    let long = vec![whole; 128];
    let axioms = [
        Axiom::EquivalentClasses(long.clone()),
        Axiom::DisjointClasses(long.clone()),
        Axiom::DisjointUnion(0, long),
    ];
    decks.extend(axioms.map(|axiom| lines.named("128 concepts".into(), 3, axiom)));
    decks
}

/// One at even levels, the other at odd ones.
fn turn(level: u32, even: Concept, odd: Concept) -> Concept {
    if level.is_multiple_of(2) { even } else { odd }
}

/// Concept lines in the making.
#[derive(Clone, Default)]
pub struct Lines(Vec<Concept>);

impl Lines {
    /// Two classes, and over the first a path of concepts that is as deep as it may be; the number is the outermost's.
    fn nested(around: Around) -> (Self, u32) {
        let mut lines = Self::default();
        let mut concept = lines.add(Concept::Atomic(0));
        lines.add(Concept::Atomic(1));
        for level in 1..DEPTH {
            concept = lines.add(around(concept, level));
        }
        (lines, concept)
    }

    fn add(&mut self, concept: Concept) -> u32 {
        self.0.push(concept);
        u32::try_from(self.0.len() - 1).expect("few concepts")
    }

    fn named(&self, name: String, options: u32, axiom: Axiom) -> Named {
        let deck = Deck {
            classes: 128,
            individuals: 0,
            roles: 128,
            options,
            keys: Vec::new(),
            concepts: self.0.clone(),
            axioms: vec![axiom],
        };
        Named { name, deck }
    }
}

#[cfg(test)]
mod tests {
    use super::decks;

    #[test]
    fn every_deck_is_read() {
        for named in decks() {
            assert_eq!(
                deck::read(&deck::write(&named.deck)),
                Ok(named.deck),
                "{}",
                named.name
            );
        }
    }
}
