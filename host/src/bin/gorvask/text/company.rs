//! Which clauses say more of a clause's fresh classes.

use std::collections::BTreeSet;

use gorvask::{Atom, ClassName, Clause, Clauses, Header};

/// For each fresh class the clauses that name it in the body, those that do in the head, and of these the ones that lead to it.
pub struct Company {
    header: Header,
    in_body: Vec<Vec<usize>>,
    in_head: Vec<Vec<usize>>,
    leading: Vec<Vec<usize>>,
}

impl Company {
    pub fn new(clauses: &Clauses<'_>) -> Self {
        Self {
            header: clauses.header(),
            in_body: naming(clauses, |clause| clause.body().collect()),
            in_head: naming(clauses, |clause| clause.head().collect()),
            leading: naming(clauses, |clause| {
                let is_class = |atom: &Atom| matches!(atom, Atom::Class(..));
                clause.head().filter(is_class).collect()
            }),
        }
    }

    /// The clauses that have a fresh class of this clause on their other side: of one in the head, what follows from it; of
    /// one in the body, where it comes from. Of one that an at-most counts also the clauses that lead to it.
    pub fn of(&self, number: usize, clause: Clause<'_>) -> BTreeSet<usize> {
        let is_at_most = |atom: &Atom| matches!(atom, Atom::AtMost(..));
        let [of_head, of_body, counted] = [
            fresh(self.header, clause.head()),
            fresh(self.header, clause.body()),
            fresh(self.header, clause.head().filter(is_at_most)),
        ];
        let from_head = of_head.iter().flat_map(|&class| &self.in_body[class]);
        let from_body = of_body.iter().flat_map(|&class| &self.in_head[class]);
        let from_counted = counted.iter().flat_map(|&class| &self.leading[class]);
        let all = from_head.chain(from_body).chain(from_counted).copied();
        all.filter(|&other| other != number).collect()
    }
}

/// For each fresh class the clauses that name it in these atoms.
fn naming(clauses: &Clauses<'_>, atoms: fn(Clause<'_>) -> Vec<Atom>) -> Vec<Vec<usize>> {
    let count = usize::try_from(clauses.fresh_ids()).expect("a count fits in an index");
    let mut naming = vec![Vec::new(); count];
    let named = |(number, clause)| {
        let named = fresh(clauses.header(), atoms(clause).into_iter());
        named.into_iter().map(move |class| (class, number))
    };
    for (class, number) in clauses.iter().enumerate().flat_map(named) {
        naming[class].push(number);
    }
    naming
}

/// The fresh classes of some atoms, each once.
fn fresh(header: Header, atoms: impl Iterator<Item = Atom>) -> BTreeSet<usize> {
    let fresh = |class| match header.class_name(class) {
        ClassName::Fresh(id) => usize::try_from(id).ok(),
        _ => None,
    };
    atoms.filter_map(Atom::class).filter_map(fresh).collect()
}
