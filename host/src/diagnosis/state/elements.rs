//! The elements and pairs of a line.

use super::super::fault::Fault;
use super::super::row::place;
use super::{fault, ids};

/// Where the elements begin, behind kind and id.
const FIRST: usize = 2;

/// The numbers are a line's whose kind and id are good, in a state of so many elements.
pub(super) fn check(size: u32, numbers: &[u32]) -> Result<(), Fault> {
    let elements = &numbers[FIRST..];
    let at = |cause: String, index: usize| Err(fault(cause).at(place(numbers, FIRST + index)));
    if let Some(index) = elements.iter().position(|&element| element >= size) {
        let element = elements[index];
        let cause = format!(
            "there is no element {element}; the state has {}",
            counted(size)
        );
        return at(cause, index);
    }
    match numbers[0] {
        ids::CLASS => match elements.windows(2).position(|pair| pair[0] >= pair[1]) {
            Some(index) => at(not_rising(elements[index], elements[index + 1]), index + 1),
            None => Ok(()),
        },
        ids::ROLE => pairs(elements).or_else(|(cause, index)| match index {
            Some(index) => at(cause, index),
            None => Err(fault(cause)),
        }),
        _ if elements.len() == 1 => Ok(()),
        _ if elements.is_empty() => Err(fault("the individual's element is missing")),
        _ => at(
            "an individual is one element, and here are more".to_owned(),
            1,
        ),
    }
}

fn counted(size: u32) -> String {
    match size {
        1 => "1 (0)".to_owned(),
        _ => format!("{size} (0 to {})", size - 1),
    }
}

fn not_rising(first: u32, second: u32) -> String {
    if first == second {
        format!("element {first} stands twice; elements rise, each once")
    } else {
        format!("element {second} after element {first}; elements rise, each once")
    }
}

/// Pairs rise by their first element, then by their second. The cause, and which number it is met at.
fn pairs(elements: &[u32]) -> Result<(), (String, Option<usize>)> {
    if elements.len() % 2 == 1 {
        let cause = "an odd number of elements; a role has pairs".to_owned();
        return Err((cause, None));
    }
    let pairs: Vec<(u32, u32)> = elements
        .chunks_exact(2)
        .map(|pair| (pair[0], pair[1]))
        .collect();
    let Some(index) = pairs.windows(2).position(|two| two[0] >= two[1]) else {
        return Ok(());
    };
    let ((a, b), (c, d)) = (pairs[index], pairs[index + 1]);
    let order = "pairs rise by their first element, then by their second, each once";
    let cause = if (a, b) == (c, d) {
        format!("the pair {a} {b} stands twice; {order}")
    } else {
        format!("the pair {c} {d} after {a} {b}; {order}")
    };
    Err((cause, Some(2 * (index + 1))))
}
