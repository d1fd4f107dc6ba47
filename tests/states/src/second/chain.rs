//! The least path along a chain of roles that ends outside the role above. Nested loops would not end on long chains, so each end
//! has its own search, from the end backwards, and the least of the paths found is taken.

use crate::second::world::{World, holds};

/// The least y0 .. yn along the parts for which (y0, yn) is no pair of `sup`.
#[must_use]
pub fn least_path(world: &World, sup: u32, parts: &[u32]) -> Option<Vec<u32>> {
    let ends: Vec<Vec<Vec<u32>>> = world
        .elements()
        .map(|end| reaching(world, parts, end))
        .collect();
    world.elements().find_map(|first| {
        let outside = world
            .elements()
            .filter(|&end| !world.is_related(sup, first, end));
        let paths = outside.filter_map(|end| path(world, parts, first, &ends[end as usize]));
        paths.min()
    })
}

/// Before each part, and behind the last: the elements from which the rest of the parts leads to an end.
fn reaching(world: &World, parts: &[u32], end: u32) -> Vec<Vec<u32>> {
    let mut reaching = vec![vec![end]];
    for &part in parts.iter().rev() {
        let after = &reaching[reaching.len() - 1];
        let pairs = world.pairs(part).iter();
        let before = pairs.filter(|pair| holds(after, pair[1]));
        let mut before: Vec<u32> = before.map(|pair| pair[0]).collect();
        before.dedup();
        reaching.push(before);
    }
    reaching.reverse();
    reaching
}

/// The least path along the parts from one element, always where the end can be reached.
fn path(world: &World, parts: &[u32], first: u32, reaching: &[Vec<u32>]) -> Option<Vec<u32>> {
    let mut path = vec![first];
    holds(&reaching[0], first).then_some(())?;
    for (&part, after) in parts.iter().zip(&reaching[1..]) {
        let from = path[path.len() - 1];
        let next = world.led_to(part, from).find(|&to| holds(after, to))?;
        path.push(next);
    }
    Some(path)
}

#[cfg(test)]
mod tests {
    use deck::random::Random;

    use super::least_path;
    use crate::second::axioms::chain_holds_at;
    use crate::second::least::least;
    use crate::second::state::State;
    use crate::second::world::World;

    /// The nested loops, which go by the condition as it is written, find the same path.
    #[test]
    fn as_nested_loops_find_it() {
        let mut rng = Random::new(1);
        let mut found = 0;
        for _ in 0..2_000 {
            let size = rng.between(1, 4);
            let full = rng.between(1, 9);
            let pair = |x| (0..size).map(move |y| [x, y]);
            let pairs: Vec<[u32; 2]> = (0..size).flat_map(pair).collect();
            let mut state = State {
                size,
                ..State::default()
            };
            for role in 0..3 {
                let some = pairs.iter().filter(|_| rng.chance(full, 10)).copied();
                state.roles.insert(role, some.collect());
            }
            let world = World::new(&deck::Deck::default(), &state);
            let parts: Vec<u32> = (0..rng.below(6)).map(|_| rng.below(6)).collect();
            let sup = rng.below(6);
            let nested = least(size, parts.len() + 1, |at| {
                chain_holds_at(&world, sup, &parts, at)
            });
            assert_eq!(least_path(&world, sup, &parts), nested);
            found += usize::from(nested.is_some());
        }
        assert!((500..1_800).contains(&found), "{found}");
    }
}
