//! Full states of the layout: 64 elements, and a line for every class and role.

use std::collections::BTreeMap;

use deck::random::Random;
use deck::{Axiom, Deck};
use states::second::state::{ELEMENTS, State};

/// Pairs of elements, rising.
type Pairs = Vec<[u32; 2]>;
/// The elements of each class, rising.
type Classes = BTreeMap<u32, Vec<u32>>;

/// A state in which the taxonomy holds that a realistic deck begins with.
pub fn layout(rng: &mut Random, deck: &Deck) -> State {
    let mut classes = taxonomy(rng, deck);
    part_some(rng, deck, &mut classes);
    let roles = roles(rng, deck, &classes);
    let individuals = 0..deck.individuals;
    State {
        size: ELEMENTS,
        classes,
        roles,
        individuals: individuals.map(|_| rng.below(ELEMENTS)).collect(),
    }
}

/// Every class with all elements, every role with all pairs.
pub fn whole(deck: &Deck) -> State {
    let classes = (0..deck.classes).map(|class| (class, (0..ELEMENTS).collect()));
    let roles = (0..deck.roles).map(|role| (role, all_pairs().collect()));
    State {
        size: ELEMENTS,
        classes: classes.collect(),
        roles: roles.collect(),
        individuals: vec![0; deck.individuals as usize],
    }
}

pub fn all_pairs() -> impl Iterator<Item = [u32; 2]> {
    (0..ELEMENTS).flat_map(|x| (0..ELEMENTS).map(move |y| [x, y]))
}

/// The first class has all elements, and each other one half of those of the class above it, at least one.
fn taxonomy(rng: &mut Random, deck: &Deck) -> Classes {
    let mut classes = Classes::from([(0, (0..ELEMENTS).collect())]);
    for (class, above) in inclusions(deck) {
        let above = &classes[&above];
        let one = *rng.pick(above);
        let some = above.iter().copied();
        let some = some.filter(|&element| element == one || rng.chance(1, 2));
        let some = some.collect();
        classes.insert(class, some);
    }
    classes
}

/// A class and the one above it. Each class's concept has its number.
fn inclusions(deck: &Deck) -> impl Iterator<Item = (u32, u32)> {
    deck.axioms.iter().map(|axiom| match *axiom {
        Axiom::SubClassOf(class, above) => (class, above),
        _ => panic!("the deck has more than its taxonomy"),
    })
}

/// Of the classes that have none below, some become the disjoint union of the two behind them.
fn part_some(rng: &mut Random, deck: &Deck, classes: &mut Classes) {
    let above: BTreeMap<u32, u32> = inclusions(deck).collect();
    let first = above.values().max().map_or(0, |last| last + 1);
    for class in (first..deck.classes.saturating_sub(2)).step_by(8) {
        let mut taken = Vec::new();
        let parts = [class + 1, class + 2].map(|part| {
            let free = classes[&above[&class]].iter();
            let free = free.filter(|element| classes[&above[&part]].contains(element));
            let free: Vec<u32> = free.filter(|e| !taken.contains(*e)).copied().collect();
            let part: Vec<u32> = free.into_iter().filter(|_| rng.chance(1, 2)).collect();
            taken.extend(&part);
            part
        });
        if parts.iter().all(|part| !part.is_empty()) {
            taken.sort_unstable();
            let [one, other] = parts;
            classes.extend([(class, taken), (class + 1, one), (class + 2, other)]);
        }
    }
}

/// Of each eight roles two lead from a class to another, two have half of all pairs, two are orders, and two have all pairs or
/// lead from each element to one; of each two the second is the first one's inverse.
fn roles(rng: &mut Random, deck: &Deck, classes: &Classes) -> BTreeMap<u32, Pairs> {
    let mut roles: BTreeMap<u32, Pairs> = BTreeMap::new();
    for role in 0..deck.roles {
        let pairs = match (role % 2, role / 2 % 4) {
            (1, _) => turned(&roles[&(role - 1)]),
            (_, 0) => {
                // The first of the classes that the deck's paths along the role lead to.
                let [from, to] = [53, 37].map(|step| &classes[&(step * role % deck.classes)]);
                let pairs = from.iter().flat_map(|&x| to.iter().map(move |&y| [x, y]));
                pairs.filter(|_| rng.chance(7, 8)).collect()
            }
            (_, 1) => all_pairs().filter(|_| rng.chance(1, 2)).collect(),
            (_, 2) => order(rng),
            _ if role / 2 % 8 == 3 => all_pairs().collect(),
            _ => (0..ELEMENTS).map(|x| [x, rng.below(ELEMENTS)]).collect(),
        };
        roles.insert(role, pairs);
    }
    roles
}

fn turned(pairs: &[[u32; 2]]) -> Pairs {
    let mut turned: Pairs = pairs.iter().map(|&[x, y]| [y, x]).collect();
    turned.sort_unstable();
    turned
}

/// All elements in some order, each before every later one.
fn order(rng: &mut Random) -> Pairs {
    let mut places: Vec<u32> = (0..ELEMENTS).collect();
    rng.shuffle(&mut places);
    let place = |element: u32| places[element as usize];
    let pairs = all_pairs().filter(|&[x, y]| place(x) < place(y));
    pairs.collect()
}
