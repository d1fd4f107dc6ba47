//! Decks that lean on one part of the clausifier, up to the limits.

use deck::Axiom;
use states::second::state::State;

use crate::draft::Draft;
use crate::layout;

/// Visits that a deck may have.
const VISITS: u32 = 1_000_000;
/// Concepts of the pool.
const POOL: u32 = 2_048;
/// List members of the pool.
const MEMBERS: u32 = 16_384;

/// Just a million visits, all in normal forms: assertions of concepts whose levels name the one below twice.
pub fn visits_in_normal_forms() -> Vec<u8> {
    let mut draft = Draft::new(2, 1, 2);
    let mut concept = draft.class(0);
    let mut sizes = vec![(concept, 1)];
    for _ in 0..17 {
        let paths = [draft.some(0, concept), draft.all(2, concept)];
        concept = draft.and(&paths);
        let below = sizes[sizes.len() - 1].1;
        sizes.push((concept, 2 * below + 3));
    }
    let mut rest = VISITS;
    for &(concept, size) in sizes.iter().rev() {
        while size <= rest {
            rest -= size;
            draft.axiom(Axiom::ClassAssertion(concept, 0));
        }
    }
    draft.bytes()
}

/// Close to a million visits, most in antecedents: disjoint concepts that cannot be antecedents because of their last
/// part, encoded anew for each pair.
pub fn visits_in_antecedents() -> Vec<u8> {
    let mut draft = Draft::new(3, 0, 2);
    let mut concept = draft.class(0);
    let mut members = Vec::new();
    for _ in 0..9 {
        concept = draft.some(0, concept);
        members.push(concept);
    }
    members.push(draft.all(2, concept));
    let whole = draft.and(&members);
    // Each encoding visits the And, its Somes with 2 to 10 visits, and the All; each normal form the All's parts too.
    let encoding = 2 + (2..=10).sum::<u32>();
    let visits = |length: u32| length * (length - 1) * encoding + length * (encoding + 10);
    let mut rest = VISITS;
    for length in (2..=128).rev() {
        while visits(length) <= rest {
            rest -= visits(length);
            draft.axiom(Axiom::DisjointClasses(vec![whole; length as usize]));
        }
    }
    draft.bytes()
}

/// Close to a million visits, half of them in heads: inclusions into concepts of Alls and Ands over Top, which give no
/// clause.
pub fn visits_in_heads() -> Vec<u8> {
    let mut draft = Draft::new(1, 0, 2);
    let class = draft.class(0);
    let mut concept = draft.top();
    let mut sizes = vec![(concept, 1)];
    for _ in 0..17 {
        let paths = [draft.all(0, concept), draft.all(2, concept)];
        concept = draft.and(&paths);
        let below = sizes[sizes.len() - 1].1;
        sizes.push((concept, 2 * below + 3));
    }
    let mut rest = VISITS;
    for &(concept, size) in sizes.iter().rev() {
        // The class twice, the concept twice.
        while 2 + 2 * size <= rest {
            rest -= 2 + 2 * size;
            draft.below(class, concept);
        }
    }
    draft.bytes()
}

/// 1,024 roles in one chain of inverse declarations, each of which makes an entry; and one inclusion over roles of all its parts,
/// the last axiom that a deck may have.
pub fn inverse_chain(options: u32) -> Vec<u8> {
    let mut draft = Draft::new(16, 0, 1_024);
    draft.set_options(options);
    let somes: Vec<u32> = (0..7)
        .map(|place| {
            let filler = draft.class(place);
            draft.some(2 * 170 * place, filler)
        })
        .collect();
    let alls: Vec<u32> = (0..7)
        .map(|place| {
            let filler = draft.class(8 + place);
            draft.all(2 * (170 * place + 1) + 1, filler)
        })
        .collect();
    let (sub, sup) = (draft.and(&somes), draft.and(&alls));
    for role in 0..1_023 {
        draft.axiom(Axiom::Inverse(2 * (role + 1), 2 * role));
    }
    draft.below(sub, sup);
    draft.bytes()
}

/// 64 wide bodies for each axiom: seven branches that all share, and one of 64 different ones below a role of the axiom's
/// own, or below a shared role.
pub fn wide(axioms: u32, own_roles: bool) -> Vec<u8> {
    let mut draft = Draft::new(64.max(axioms), 0, 8 + axioms);
    let fillers = draft.classes(0, 64);
    let any = draft.or(&fillers);
    let shared: Vec<u32> = (0..7).map(|role| draft.some(2 * role, role)).collect();
    for axiom in 0..axioms {
        let role = if own_roles { 8 + axiom } else { 7 };
        let mut branches = shared.clone();
        branches.push(draft.some(2 * role, any));
        let sub = draft.and(&branches);
        let sup = draft.class(axiom);
        draft.below(sub, sup);
    }
    draft.bytes()
}

/// Wide bodies that branch on three levels, three ways on each, 64 for each axiom.
pub fn wide_trees(axioms: u32) -> Vec<u8> {
    let mut draft = Draft::new(64 + axioms, 0, 3 + axioms);
    let fillers = draft.classes(0, 64);
    let any = draft.or(&fillers);
    let branches = |draft: &mut Draft, fillers: [u32; 3]| {
        let paths = [0, 1, 2].map(|way| draft.some(2 * way, fillers[way as usize]));
        draft.and(&paths)
    };
    let leaves = branches(&mut draft, [fillers[0], fillers[1], fillers[2]]);
    let inner = branches(&mut draft, [leaves; 3]);
    for axiom in 0..axioms {
        let choice = draft.some(2 * (3 + axiom), any);
        let paths = [0, 1, 2].map(|way| draft.some(2 * way, inner));
        let sub = draft.and(&[paths[0], paths[1], paths[2], choice]);
        let sup = draft.class(64 + axiom);
        draft.below(sub, sup);
    }
    draft.bytes()
}

/// An antecedent of so many Somes over a reflexive role, 2^width - 1 derived clauses, and one more by a range.
pub fn reflexive(width: u32) -> Vec<u8> {
    let mut draft = Draft::new(width + 2, 0, 1);
    let members: Vec<u32> = (0..width)
        .map(|class| {
            let filler = draft.class(class);
            draft.some(0, filler)
        })
        .collect();
    let sub = draft.and(&members);
    let (sup, range) = (draft.class(width), draft.class(width + 1));
    draft.below(sub, sup);
    draft.axiom(Axiom::Range(0, range));
    draft.axiom(Axiom::Reflexive(0));
    draft.bytes()
}

/// A pool of 2,048 concepts: chains with their complements, and classes for the rest.
pub fn full_of_concepts() -> Vec<u8> {
    let mut draft = Draft::new(1_000, 1, 2);
    let chains = 11;
    for class in 0..chains {
        let leaf = draft.class(class);
        let witness = draft.some(0, leaf);
        let mut concept = draft.not(witness);
        for level in 0..56 {
            concept = if level % 2 == 0 {
                draft.some(2, concept)
            } else {
                draft.all(3, concept)
            };
        }
        let complement = draft.not(concept);
        draft.below(concept, complement);
    }
    // Of a chain's lines, the class, the Some and the two negations have no complement that is new; the negated Some's
    // normal form comes with the negated class.
    let lines = u32::try_from(draft.concepts()).expect("few concepts");
    let pool = lines + 2 * chains + 2 * (lines - 4 * chains);
    draft.classes(chains, chains + POOL - pool);
    draft.bytes()
}

/// A pool of 16,384 list members: an Or of 128 and its complement, Ands that flatten it, and one plain And.
pub fn full_of_members() -> Vec<u8> {
    let mut draft = Draft::new(128, 1, 0);
    let leaves = draft.classes(0, 128);
    let choice = draft.or(&leaves);
    let none = draft.not(choice);
    let flattening = 123;
    for &leaf in leaves.iter().take(flattening) {
        let whole = draft.and(&[leaf, none]);
        draft.below(leaf, whole);
    }
    let members = 2 * 128 + (2 + 129) * u32::try_from(flattening).expect("few");
    let plain = (MEMBERS - members) as usize;
    draft.and(&leaves[..plain]);
    draft.bytes()
}

/// 65,536 clauses: lists of 128 equivalent classes, and irreflexive roles.
pub fn full_of_clauses() -> Vec<u8> {
    let mut draft = Draft::new(128, 0, 1);
    let classes = draft.classes(0, 128);
    for _ in 0..4 {
        draft.axiom(Axiom::EquivalentClasses(classes.clone()));
    }
    for _ in 0..512 {
        draft.axiom(Axiom::Irreflexive(0));
    }
    draft.bytes()
}

/// 65,536 clauses of four variables, r(x, 1) s(x, 2) t(x, 3) → A(x), each of r, s and t one of four roles; and a state in which
/// they hold because the four roles of t are empty. The first three variables may be anything, and so all of it is gone through.
pub fn four_variables() -> (Vec<u8>, State) {
    let mut draft = Draft::new(1, 0, 12);
    let top = draft.top();
    let parts = [0, 4, 8].map(|first| {
        let paths: Vec<u32> = (first..first + 4)
            .map(|role| draft.some(2 * role, top))
            .collect();
        draft.or(&paths)
    });
    let (sub, sup) = (draft.and(&parts), draft.class(0));
    for _ in 0..1_024 {
        draft.below(sub, sup);
    }
    let mut state = layout::whole(draft.deck());
    state.classes.insert(0, Vec::new());
    for role in 8..12 {
        state.roles.insert(role, Vec::new());
    }
    (draft.bytes(), state)
}

#[cfg(test)]
mod tests {
    use states::second::clauses::variables;

    use super::four_variables;
    use crate::decks::Known;

    #[test]
    fn clauses_of_four_variables() {
        let (deck, state) = four_variables();
        let Known { listing, .. } = Known::of(&deck);
        assert_eq!(listing.clauses.len(), 65_536);
        for clause in &listing.clauses {
            let all = variables(clause);
            assert_eq!(all.len(), 4);
            // Only the last variable's role has no pairs.
            for [kind, role, .., second] in &clause.body {
                let is_empty = state.roles[&(role / 2)].is_empty();
                assert_eq!((*kind, is_empty), (2, *second == all[3]));
            }
            assert_eq!((clause.body.len(), clause.head.len()), (3, 1));
        }
    }
}
