//! What the program `replay` reads: decks with the original's answers, in the form that its first comment gives.

use std::collections::BTreeMap;
use std::ops::Range;

use deck::write::row;

use crate::sampling::drawn;
use crate::{Answer, Limits, Listing, answer_min_zero, number};

/// The tables that the program lends.
const LIMITS: Limits = Limits::LISTER;
/// The decks come from these seeds.
const SEEDS: Range<u64> = 1..18_001;
/// Bytes of a short deck with its answer, and the most of any.
const SHORT: usize = 1_800;
const LONG: usize = 12_000;
/// Bytes of the short decks of one kind with alike answers: of those that the reading refuses, and of others.
const ALIKE: [usize; 2] = [3_000, 13_000];

/// A deck with its answer.
pub struct Case {
    /// What the deck is.
    pub kind: String,
    pub answer: Answer,
    /// As the program reads them.
    pub bytes: Vec<u8>,
}

/// Of the seeds' decks, of each kind with each answer: short ones, or the shortest.
#[must_use]
pub fn cases() -> Vec<Case> {
    let mut groups: BTreeMap<(String, Vec<String>), Vec<Case>> = BTreeMap::new();
    for seed in SEEDS {
        let (kind, deck) = drawn(seed);
        let case = case(kind, &deck);
        let bytes = case.bytes.len();
        let group = groups
            .entry((case.kind.clone(), labels(&case.answer)))
            .or_default();
        let has_long = group.first().is_some_and(|case| case.bytes.len() > SHORT);
        if has_long && bytes < group[0].bytes.len() {
            group.clear();
        }
        let taken: usize = group.iter().map(|case| case.bytes.len()).sum();
        let most = ALIKE[usize::from(is_read(&case.answer))];
        if group.is_empty() && bytes <= LONG || bytes <= SHORT && taken + bytes <= most {
            group.push(case);
        }
    }
    groups.into_values().flatten().collect()
}

/// The reading accepts the deck.
fn is_read(answer: &Answer) -> bool {
    !matches!(answer, Answer::Refused(refusal) if refusal.number < 10)
}

/// The refusal, or the deferrals' kinds, the table ends that were reached, and whether bodies were decomposed.
fn labels(answer: &Answer) -> Vec<String> {
    match answer {
        Answer::Refused(refusal) => vec![format!("refused {}", refusal.number)],
        Answer::CannotHold => unreachable!("Min 0 lines are held"),
        Answer::Accepted(listing) => {
            let mut labels = Vec::new();
            for kind in 1..=9 {
                if listing.deferrals.iter().any(|deferral| deferral.1 == kind) {
                    labels.push(format!("deferral {kind}"));
                }
            }
            let ends = [
                ("clauses", listing.clauses.len() == LIMITS.clauses),
                ("atoms", listing.atom_table().len() == 6 * LIMITS.atoms),
                ("deferrals", listing.deferrals.len() == LIMITS.deferrals),
                ("decomposed", listing.stats[6] > 0),
            ];
            for (end, _) in ends.iter().filter(|(_, reached)| *reached) {
                labels.push((*end).to_owned());
            }
            labels
        }
    }
}

fn case(kind: String, deck: &[u8]) -> Case {
    let answer = answer_min_zero(deck, &LIMITS);
    let mut bytes = Vec::new();
    put_deck(&mut bytes, deck);
    match &answer {
        Answer::Accepted(listing) => put_listing(&mut bytes, listing),
        Answer::Refused(refusal) => put_all(&mut bytes, &[refusal.number, refusal.line]),
        Answer::CannotHold => unreachable!("Min 0 lines are held"),
    }
    Case {
        kind,
        answer,
        bytes,
    }
}

/// Standard input of the program, and what it prints where it agrees.
#[must_use]
pub fn files(cases: &[Case]) -> [Vec<u8>; 2] {
    let mut input = Vec::new();
    put(&mut input, number(cases.len()));
    for case in cases {
        put(&mut input, number(case.bytes.len()));
        input.extend_from_slice(&case.bytes);
    }
    let is_accepted = |case: &&Case| matches!(case.answer, Answer::Accepted(_));
    let accepted = cases.iter().filter(is_accepted).count();
    let mut output = Vec::new();
    let counts = [cases.len(), accepted, cases.len() - accepted, 0].map(number);
    row(&mut output, &counts);
    [input, output]
}

fn put_deck(out: &mut Vec<u8>, deck: &[u8]) {
    let lines: Vec<&[u8]> = deck.split_inclusive(|&byte| byte == b'\n').collect();
    put(out, number(lines.len()));
    for line in lines {
        if let Some(numbers) = numbers(line) {
            put(out, 2 * number(numbers.len()));
            put_all(out, &numbers);
        } else {
            put(out, 2 * number(line.len()) + 1);
            out.extend_from_slice(line);
        }
    }
}

/// The numbers of a line that is nothing but numbers in their columns.
fn numbers(line: &[u8]) -> Option<Vec<u32>> {
    let text = std::str::from_utf8(line).ok()?;
    let numbers: Vec<u32> = text
        .split_ascii_whitespace()
        .map(str::parse)
        .collect::<Result<_, _>>()
        .ok()?;
    let mut columns = Vec::new();
    row(&mut columns, &numbers);
    (columns == line).then_some(numbers)
}

fn put_listing(out: &mut Vec<u8>, listing: &Listing) {
    put(out, 0);
    put_all(out, &listing.numbers());
    for record in listing.clause_table().chunks(3) {
        put_all(out, &record[1..]);
    }
    for atom in listing.atom_table().chunks(6) {
        put_atom(out, atom);
    }
    put_all(out, &listing.deferral_table());
}

fn put_atom(out: &mut Vec<u8>, atom: &[u32]) {
    let words = &atom[1..];
    let bit = |(place, &word): (usize, &u32)| u32::from(word != 0) << place;
    let bits: u32 = words.iter().enumerate().map(bit).sum();
    put(out, 32 * atom[0] + bits);
    for &word in words.iter().filter(|&&word| word != 0) {
        put(out, word);
    }
}

fn put_all(out: &mut Vec<u8>, numbers: &[u32]) {
    for &number in numbers {
        put(out, number);
    }
}

fn put(out: &mut Vec<u8>, mut number: u32) {
    while number > 127 {
        out.push(number.to_le_bytes()[0] | 128);
        number /= 128;
    }
    out.push(number.to_le_bytes()[0]);
}
