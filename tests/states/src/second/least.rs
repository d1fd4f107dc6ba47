//! Assignments of elements, one after the other.

/// The first of all assignments of `count` elements below `size`, element by element, at which the test fails.
pub fn least(size: u32, count: usize, holds: impl Fn(&[u32]) -> bool) -> Option<Vec<u32>> {
    let mut assignment = vec![0; count];
    loop {
        if !holds(&assignment) {
            return Some(assignment);
        }
        // The last place that can still grow does, and those behind it begin again.
        let place = assignment.iter().rposition(|&x| x + 1 < size)?;
        assignment[place] += 1;
        assignment[place + 1..].fill(0);
    }
}
