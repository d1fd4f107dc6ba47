//! A second reading of option 8, over any map of inverses, rings too: from where following ends back to where it begins. It
//! shares nothing with the rules' definition, nor with the instrumented copy.

use deck::write::{axiom_row, concept_row};
use deck::{Axiom, Concept, Deck};

/// A map of inverses, newest entry first: a role's id, and the code of the role that takes its place. No id comes twice.
#[derive(Clone, Debug, Default, PartialEq, Eq)]
pub struct Inverses(pub Vec<(u32, u32)>);

impl Inverses {
    /// The entries that the original makes of a deck's declarations.
    #[must_use]
    pub fn declared(deck: &Deck) -> Self {
        let mut entries = Vec::new();
        for axiom in &deck.axioms {
            let &Axiom::Inverse(first, second) = axiom else {
                continue;
            };
            let are_named = first % 2 == 0 && second % 2 == 0;
            let is_key = |code: u32| entries.iter().any(|&(key, _)| 2 * key == code);
            if are_named && first != second && !is_key(first) && !is_key(second) {
                entries.push((second / 2, first + 1));
            }
        }
        entries.reverse();
        Self(entries)
    }

    /// The code that an entry has for a role.
    #[must_use]
    pub fn value(&self, id: u32) -> Option<u32> {
        let entry = self.0.iter().find(|&&(key, _)| key == id)?;
        Some(entry.1)
    }

    /// The ids on rings: keys are left out, one after the other, as long as no other key leads to them.
    #[must_use]
    pub fn on_rings(&self) -> Vec<u32> {
        let mut left = self.0.clone();
        loop {
            let leads_to = |id: u32| left.iter().any(|&(_, value)| value / 2 == id);
            let Some(place) = left.iter().position(|&(key, _)| !leads_to(key)) else {
                break;
            };
            left.remove(place);
        }
        let mut ids: Vec<u32> = left.into_iter().map(|(key, _)| key).collect();
        ids.sort_unstable();
        ids
    }

    /// The rings, each from its least id on.
    #[must_use]
    pub fn rings(&self) -> Vec<Vec<u32>> {
        let mut rings: Vec<Vec<u32>> = Vec::new();
        for least in self.on_rings() {
            if rings.iter().any(|ring| ring.contains(&least)) {
                continue;
            }
            let mut ring = vec![least];
            loop {
                let last = ring[ring.len() - 1];
                let next = self.value(last).expect("a ring's id is a key") / 2;
                if next == least {
                    break;
                }
                ring.push(next);
            }
            rings.push(ring);
        }
        rings
    }

    /// Of each id below `roles`: the code that its role is followed to, and in how many steps.
    ///
    /// # Panics
    /// If the map has an id beyond.
    #[must_use]
    pub fn ways(&self, roles: u32) -> Vec<(u32, usize)> {
        let least = self.rings().into_iter().map(|ring| ring[0]);
        let least: Vec<u32> = least.collect();
        let stays = |id: &u32| self.value(*id).is_none() || least.contains(id);
        let mut ways = vec![None; roles as usize];
        let mut found: Vec<u32> = (0..roles).filter(stays).collect();
        for &id in &found {
            ways[id as usize] = Some((2 * id, 0));
        }
        while let Some(reached) = found.pop() {
            let (end, steps) = ways[reached as usize].expect("it was found");
            let before = self.0.iter().filter(|&&(_, value)| value / 2 == reached);
            for &(key, value) in before.filter(|(key, _)| !stays(key)) {
                ways[key as usize] = Some((end ^ (value % 2), steps + 1));
                found.push(key);
            }
        }
        let ways = ways.into_iter();
        ways.map(|way| way.expect("every way ends")).collect()
    }

    /// What each code below twice `roles` is followed to.
    #[must_use]
    pub fn ends(&self, roles: u32) -> Vec<u32> {
        let ways = self.ways(roles).into_iter();
        ways.flat_map(|(end, _)| [end, end ^ 1]).collect()
    }
}

/// The deck with each role, but those of inverse declarations, in the spelling that it is followed to, and without option 8.
#[must_use]
pub fn respelled(deck: &Deck) -> Deck {
    respelled_as(deck, &Inverses::declared(deck).ends(deck.roles))
}

/// The deck with each role's code, but those of inverse declarations, as these have it, and without option 8.
#[must_use]
pub fn respelled_as(deck: &Deck, ends: &[u32]) -> Deck {
    let concepts = deck.concepts.iter();
    Deck {
        options: deck.options & 7,
        concepts: concepts.map(|line| concept(line, ends)).collect(),
        axioms: deck.axioms.iter().map(|line| axiom(line, ends)).collect(),
        ..deck.clone()
    }
}

/// A concept in these spellings.
#[must_use]
pub fn concept(line: &Concept, ends: &[u32]) -> Concept {
    let end = |role: u32| ends[role as usize];
    match *line {
        Concept::SelfRestriction(role) => Concept::SelfRestriction(end(role)),
        Concept::Some(role, part) => Concept::Some(end(role), part),
        Concept::All(role, part) => Concept::All(end(role), part),
        Concept::Min(n, role, part) => Concept::Min(n, end(role), part),
        Concept::Max(n, role, part) => Concept::Max(n, end(role), part),
        ref other => other.clone(),
    }
}

/// An axiom in these spellings.
#[must_use]
pub fn axiom(line: &Axiom, ends: &[u32]) -> Axiom {
    let end = |role: u32| ends[role as usize];
    let all = |roles: &[u32]| roles.iter().map(|&role| end(role)).collect();
    match *line {
        Axiom::Domain(role, concept) => Axiom::Domain(end(role), concept),
        Axiom::Range(role, concept) => Axiom::Range(end(role), concept),
        Axiom::Chain(sup, ref parts) => Axiom::Chain(end(sup), all(parts)),
        Axiom::Transitive(role) => Axiom::Transitive(end(role)),
        Axiom::Irreflexive(role) => Axiom::Irreflexive(end(role)),
        Axiom::Asymmetric(role) => Axiom::Asymmetric(end(role)),
        Axiom::DisjointRoles(ref list) => Axiom::DisjointRoles(all(list)),
        Axiom::RoleInclusion(sub, sup) => Axiom::RoleInclusion(end(sub), end(sup)),
        Axiom::EquivalentRoles(ref list) => Axiom::EquivalentRoles(all(list)),
        Axiom::Reflexive(role) => Axiom::Reflexive(end(role)),
        ref other => other.clone(),
    }
}

/// The kinds of lines whose roles are followed.
pub const KINDS: [u32; 15] = [5, 9, 10, 11, 12, 25, 26, 27, 28, 29, 30, 31, 33, 34, 35];

/// Those of a deck's lines in which a role takes two steps or more, each once.
#[must_use]
pub fn kinds_in_two_steps(deck: &Deck) -> Vec<u32> {
    let ways = Inverses::declared(deck).ways(deck.roles);
    // A code that no way has marks the roles that take two steps.
    let marks: Vec<u32> = (0..2 * deck.roles)
        .map(|role| {
            if ways[role as usize / 2].1 > 1 {
                u32::MAX
            } else {
                role
            }
        })
        .collect();
    let concepts = deck.concepts.iter();
    let concepts = concepts.filter(|line| concept(line, &marks) != **line);
    let axioms = deck.axioms.iter();
    let axioms = axioms.filter(|line| axiom(line, &marks) != **line);
    let kinds = concepts.map(|line| concept_row(line)[0]);
    let mut kinds: Vec<u32> = kinds.chain(axioms.map(|line| axiom_row(line)[0])).collect();
    kinds.sort_unstable();
    kinds.dedup();
    kinds
}
