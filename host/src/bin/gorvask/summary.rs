//! A deck's numbers, in two lines.

use gorvask::Clauses;

pub fn summary(clauses: &Clauses<'_>) -> String {
    let counts = clauses.statistics();
    let (total, horn, disjunctive) = (counts.total, counts.horn, counts.disjunctive);
    let (bottom_headed, with_exists_head) = (counts.bottom_headed, counts.with_exists_head);
    let (deferred, decomposed, refused) = (counts.deferred, counts.decomposed, counts.refused);
    let (fresh, visits) = (clauses.fresh_ids(), clauses.visits());
    format!(
        "clauses {total}: horn {horn}, disjunctive {disjunctive}, without a head {bottom_headed}, \
         with Exists in the head {with_exists_head}\n\
         deferred {deferred}, split {decomposed}, left wide {refused}, fresh classes {fresh}, visits {visits}\n"
    )
}
