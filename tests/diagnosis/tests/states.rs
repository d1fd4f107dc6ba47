//! The diagnosis of a state beside a plain reading of the rules: the same first bad line, or none.

use deck::random::Random;
use deck::write::row;
use diagnosis::state::{Counts, diagnose};

/// The numbers of a line, with its line feed.
fn numbers(text: &[u8]) -> Option<Vec<u32>> {
    let line = std::str::from_utf8(text.strip_suffix(b"\n")?).ok()?;
    if line.is_empty() || line.len() % 11 != 0 || !line.is_ascii() {
        return None;
    }
    let fields = line.as_bytes().chunks(11);
    fields
        .map(|field| {
            let field = std::str::from_utf8(field).ok()?;
            let number: u32 = field.trim_start_matches(' ').parse().ok()?;
            (format!("{number:11}") == field).then_some(number)
        })
        .collect()
}

/// The first bad line, 0 where only an individual's is missing; none where the state is good.
fn first_bad(counts: Counts, state: &[u8]) -> Option<u32> {
    let mut before = vec![];
    let mut size = 0;
    let mut individuals = 0;
    for (line, text) in (1..).zip(state.split_inclusive(|&byte| byte == b'\n')) {
        let Some(numbers) = numbers(text) else {
            return Some(line);
        };
        let is_good = if line == 1 {
            size = numbers.get(1).copied().unwrap_or(0);
            numbers.len() == 2 && numbers[0] == 50 && (1..=64).contains(&size)
        } else {
            is_good(counts, size, &before, &numbers)
        };
        if !is_good {
            return Some(line);
        }
        individuals += u32::from(numbers[0] == 53);
        before = numbers;
    }
    match (state.is_empty(), individuals == counts.individuals) {
        (true, _) => Some(1),
        (_, false) => Some(0),
        _ => None,
    }
}

fn is_good(counts: Counts, size: u32, before: &[u32], numbers: &[u32]) -> bool {
    let [kind, id, rest @ ..] = numbers else {
        return false;
    };
    let is_behind = before[0] == 50 || (before[0], before[1]) < (*kind, *id);
    let elements = rest.iter().all(|&element| element < size);
    let end = counts.classes + counts.individuals;
    let is_own = match kind {
        51 => {
            let is_class = *id < counts.classes || (end..end + counts.fresh).contains(id);
            is_class && rest.is_sorted_by(|a, b| a < b)
        }
        52 => {
            let (pairs, odd) = rest.as_chunks::<2>();
            *id < counts.roles && odd.is_empty() && pairs.is_sorted_by(|a, b| a < b)
        }
        53 => *id < counts.individuals && rest.len() == 1,
        _ => false,
    };
    is_behind && elements && is_own
}

/// A good state.
fn state(rng: &mut Random, counts: Counts) -> Vec<u8> {
    let size = rng.between(1, 5);
    let mut rows = vec![vec![50, size]];
    let end = counts.classes + counts.individuals;
    let classes = (0..counts.classes).chain(end..end + counts.fresh);
    let ids = classes.map(|id| (51, id));
    let ids = ids.chain((0..counts.roles).map(|id| (52, id)));
    let individuals = (0..counts.individuals).map(|id| (53, id));
    for (kind, id) in ids.chain(individuals) {
        if kind != 53 && rng.chance(1, 3) {
            continue;
        }
        let mut numbers = vec![kind, id];
        match kind {
            51 => numbers.extend((0..size).filter(|_| rng.chance(1, 2))),
            52 => {
                let pairs = (0..size * size).filter(|_| rng.chance(1, 3));
                numbers.extend(pairs.flat_map(|pair| [pair / size, pair % size]));
            }
            _ => numbers.push(rng.below(size)),
        }
        rows.push(numbers);
    }
    let mut out = Vec::new();
    for numbers in rows {
        row(&mut out, &numbers);
    }
    out
}

/// Rows or bytes changed, taken out, put in or put elsewhere.
fn damaged(rng: &mut Random, state: &[u8]) -> Vec<u8> {
    let mut lines: Vec<Vec<u8>> = state
        .split_inclusive(|&byte| byte == b'\n')
        .map(<[u8]>::to_vec)
        .collect();
    let place = rng.index(lines.len());
    let other = rng.index(lines.len());
    match rng.below(6) {
        0 => drop(lines.remove(place)),
        1 => lines.swap(place, other),
        2 => {
            let again = lines[place].clone();
            lines.insert(other, again);
        }
        3 => {
            let byte = rng.index(lines[place].len());
            lines[place][byte] = *rng.pick(b" 0123456789\n\tx");
        }
        4 => {
            let byte = rng.index(lines[place].len());
            lines[place].remove(byte);
        }
        _ => {
            let mut changed = numbers(&lines[place]).expect("a line of numbers");
            let at = rng.index(changed.len());
            match rng.below(3) {
                0 => changed[at] = rng.below(7),
                1 => drop(changed.remove(at)),
                _ => changed.insert(at, rng.below(7)),
            }
            lines[place].clear();
            row(&mut lines[place], &changed);
        }
    }
    lines.concat()
}

#[test]
fn the_first_bad_line_is_the_rules() {
    let mut rng = Random::new(105);
    let mut met = [0; 3];
    for round in 0..60_000 {
        let counts = Counts {
            classes: rng.below(4),
            individuals: rng.below(3),
            roles: rng.below(3),
            fresh: rng.below(3),
        };
        let good = state(&mut rng, counts);
        assert_eq!(diagnose(counts, &good), None);
        let bytes = match round % 3 {
            0 => good,
            1 => damaged(&mut rng, &good),
            _ => {
                let once = damaged(&mut rng, &good);
                damaged_again(&mut rng, once)
            }
        };
        let told = diagnose(counts, &bytes);
        let wanted = first_bad(counts, &bytes);
        let found = told.as_ref().map(|told| told.line);
        assert_eq!(
            found,
            wanted,
            "{told:?} {counts:?}\n{}",
            bytes.escape_ascii()
        );
        assert!(told.is_none_or(|told| told.number == 13 && !told.cause.contains('\n')));
        met[wanted.map_or(0, |line| 1 + line.min(1) as usize)] += 1;
    }
    // Good, without an individual's line, with a bad line.
    assert!(met.iter().all(|&states| states >= 500), "{met:?}");
}

/// A second damage, where the first left lines of numbers.
fn damaged_again(rng: &mut Random, state: Vec<u8>) -> Vec<u8> {
    let mut lines = state.split_inclusive(|&byte| byte == b'\n');
    if !state.is_empty() && lines.all(|line| numbers(line).is_some()) {
        damaged(rng, &state)
    } else {
        state
    }
}
