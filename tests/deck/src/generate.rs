//! Seeded decks that the reading accepts, in shapes that lead a clausifier into each of its arms and limits.

mod at_most;
mod builder;
mod counts;
mod deep;
mod draw;
mod following;
mod forms;
mod full;
mod lists;
mod mixed;
mod reflexive;
mod tables;
mod wide;

use crate::random::Random;
use crate::{Axiom, Deck};
use builder::Builder;

/// What a deck dwells on.
#[derive(Clone, Copy, Debug, PartialEq, Eq, Hash)]
pub enum Shape {
    /// Few lines over few names, of every kind, so that coincidences occur.
    Small,
    /// Like `Small`, with more of everything.
    Mixed,
    /// Min lines with number 0, which occur in no other shape.
    MinZero,
    /// Inverse declarations: chained, repeated, turned, of a role with itself, with inverse codes.
    Inverse,
    /// Chains of inverse declarations, mostly with option 8, and roles of them in every place.
    Following,
    /// Reflexive roles under inclusions, so that unfolding and counted loops have work, up to the cap.
    Reflexive,
    /// Data-key marks and cardinalities over marked classes.
    Keys,
    /// At-most restrictions over compounds, mostly with option 4.
    AtMost,
    /// Nesting up to 64.
    Deep,
    /// Concepts that name the one before them twice: visits double with each level.
    Shared,
    /// Antecedents with many variables, flat, branching and repeated.
    Wide,
    /// Antecedents around the cap of 64 alternatives, and hard antecedents.
    Disjunctive,
    /// Axiom lists of any length up to 128, with repeats.
    Lists,
    /// Normal forms around 2,048 concepts and 16,384 list members.
    PoolFull,
    /// Bodies and heads around 256 atoms.
    BodyLong,
    /// Clauses, atoms or deferrals around the end of the lister's tables, or of the greatest.
    Tables,
    /// Counts, numbers and bytes at their limits.
    Limits,
    /// Next to nothing: the header alone, no names, empty lists.
    Empty,
}

impl Shape {
    pub const ALL: [Self; 18] = [
        Self::Small,
        Self::Mixed,
        Self::MinZero,
        Self::Inverse,
        Self::Following,
        Self::Reflexive,
        Self::Keys,
        Self::AtMost,
        Self::Deep,
        Self::Shared,
        Self::Wide,
        Self::Disjunctive,
        Self::Lists,
        Self::PoolFull,
        Self::BodyLong,
        Self::Tables,
        Self::Limits,
        Self::Empty,
    ];
}

/// A deck of the shape, which the reading accepts.
pub fn generate(rng: &mut Random, shape: Shape) -> Deck {
    let mut builder = Builder::new(rng);
    match shape {
        Shape::Small => mixed::small(&mut builder),
        Shape::Mixed => mixed::mixed(&mut builder),
        Shape::MinZero => mixed::min_zero(&mut builder),
        Shape::Inverse => mixed::inverse(&mut builder),
        Shape::Following => following::following(&mut builder),
        Shape::Reflexive => reflexive::reflexive(&mut builder),
        Shape::Keys => mixed::keys(&mut builder),
        Shape::AtMost => at_most::at_most(&mut builder),
        Shape::Deep => deep::deep(&mut builder),
        Shape::Shared => deep::shared(&mut builder),
        Shape::Wide => wide::wide(&mut builder),
        Shape::Disjunctive => lists::disjunctive(&mut builder),
        Shape::Lists => lists::lists(&mut builder),
        Shape::PoolFull => full::pool_full(&mut builder),
        Shape::BodyLong => full::body_long(&mut builder),
        Shape::Tables => tables::tables(&mut builder),
        Shape::Limits => counts::limits(&mut builder),
        Shape::Empty => counts::empty(&mut builder),
    }
    builder.finish()
}

/// A deck of any shape, mostly a small one. The others are drawn as without the chains of inverse declarations.
pub fn any(rng: &mut Random) -> (Shape, Deck) {
    if rng.beside(32).chance(1, 15) {
        return (Shape::Following, generate(rng, Shape::Following));
    }
    let weights = Shape::ALL.map(|shape| match shape {
        Shape::Following => 0,
        Shape::Small => 40,
        Shape::Mixed | Shape::Inverse | Shape::Keys => 6,
        Shape::AtMost | Shape::Reflexive | Shape::Wide | Shape::Disjunctive => 8,
        Shape::MinZero | Shape::Deep | Shape::Lists => 4,
        Shape::Shared => 2,
        Shape::PoolFull | Shape::BodyLong | Shape::Tables | Shape::Limits | Shape::Empty => 1,
    });
    let shape = Shape::ALL[rng.weighted(&weights)];
    (shape, generate(rng, shape))
}

/// A deck of a shape, each as often as any other.
pub fn each(rng: &mut Random) -> (Shape, Deck) {
    let shape = if rng.beside(32).chance(1, 18) {
        Shape::Following
    } else {
        let others = Shape::ALL.into_iter();
        let others = others.filter(|&shape| shape != Shape::Following);
        *rng.pick(&others.collect::<Vec<_>>())
    };
    (shape, generate(rng, shape))
}

/// A deck whose roles are joined by chains of inverse declarations, put anywhere among its axioms, and option 8.
pub fn chained(rng: &mut Random, deck: &Deck) -> Deck {
    let mut builder = Builder::on(rng, deck);
    following::chained(&mut builder);
    builder.finish()
}

/// Like [`Shape::Reflexive`], and never with an antecedent that unfolds up to the cap, which takes long.
pub fn reflexive_below_the_cap(rng: &mut Random) -> Deck {
    let mut builder = Builder::new(rng);
    reflexive::below_the_cap(&mut builder);
    builder.finish()
}

/// A deck whose clauses unfold into 4,095 + `more` new ones; `more` is at most 6.
pub fn unfolding(rng: &mut Random, more: u32) -> Deck {
    let mut builder = Builder::new(rng);
    reflexive::unfolding(&mut builder, 12, more);
    builder.finish()
}

/// An axiom over the names and concepts of a deck, of any kind that these allow.
pub fn axiom_of(rng: &mut Random, deck: &Deck) -> Axiom {
    loop {
        let mut builder = Builder::on(rng, deck);
        let lines = builder.len();
        let axiom = builder.random_axiom(&draw::EVEN);
        // A list of classes may have asked for a concept line more.
        if builder.len() == lines {
            return axiom;
        }
    }
}

/// A deck with a body of 254 to 256 atoms that a counted loop lengthens by one.
pub fn counted_body_long(rng: &mut Random) -> Deck {
    let mut builder = Builder::new(rng);
    full::counted_body_long(&mut builder);
    builder.finish()
}

/// A deck with option 4 whose pool ends around 2,048 concepts while at-most fillers are put below their names.
pub fn names_at_limits(rng: &mut Random) -> Deck {
    let mut builder = Builder::new(rng);
    at_most::last_names(&mut builder);
    builder.finish()
}

/// A small deck with assertions added, whose normal forms take so many visits and change nothing else. With 0 visits only
/// the concept lines are added.
pub fn padded(rng: &mut Random, deck: &Deck, visits: u32) -> Deck {
    let mut builder = Builder::on(rng, deck);
    deep::pad(&mut builder, visits);
    builder.finish()
}

/// A deck whose normal forms alone end around one million visits or 2,048 concepts. `any` has none: they take long.
pub fn forms_at_limits(rng: &mut Random) -> Deck {
    let mut builder = Builder::new(rng);
    forms::forms(&mut builder);
    builder.finish()
}
