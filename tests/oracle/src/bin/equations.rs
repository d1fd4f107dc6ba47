//! The original's answers as equations over the rules, for the prover to compute (see tests/validate).
//!
//! Each equation is `outcome_numbers (run_with LIMIT DECK TABLES) ≡ ANSWER`, on a generated deck, a generated deck under
//! limits at which it just passes or is just refused, or a damaged one.

use std::error::Error;
use std::fmt::Write as _;
use std::fs;
use std::path::Path;

use deck::damage::{damage, over_limit};
use deck::generate::{Shape, any, generate};
use deck::random::Random;
use oracle::{Answer, Limits, answer_min_zero, run};

const USAGE: &str = "equations SEED COUNT SIZE DIR [SHAPE]
COUNT equations on decks whose bytes, visits and atoms are at most SIZE, in modules under DIR";

/// Equations in one module.
const MODULE: usize = 25;

struct Equation {
    deck: Vec<u8>,
    limits: Limits,
    answer: Vec<u32>,
}

fn main() -> Result<(), Box<dyn Error>> {
    let arguments: Vec<String> = std::env::args().skip(1).collect();
    let [seed, count, size, to, shape @ ..] = arguments.as_slice() else {
        return Err(USAGE.into());
    };
    let shape = shape.first().map(|name| shape_named(name)).transpose()?;
    let (count, size) = (count.parse()?, size.parse()?);
    let mut rng = Random::new(seed.parse()?);
    let mut equations = Vec::new();
    while equations.len() < count {
        equations.extend(equation(&mut rng, shape, size));
    }
    write_modules(&equations, Path::new(to))?;
    report(&equations);
    Ok(())
}

fn shape_named(name: &str) -> Result<Shape, String> {
    let found = Shape::ALL
        .into_iter()
        .find(|shape| format!("{shape:?}").eq_ignore_ascii_case(name));
    found.ok_or(format!("the shapes are {:?}", Shape::ALL))
}

/// An equation on the next deck, unless it is too large.
fn equation(rng: &mut Random, shape: Option<Shape>, size: usize) -> Option<Equation> {
    let sound = match shape {
        Some(shape) => generate(rng, shape),
        None => any(rng).1,
    };
    let bytes = deck::write(&sound);
    if rng.chance(1, 6) {
        let damaged = if rng.chance(1, 8) {
            over_limit(rng)
        } else {
            damage(rng, &bytes)
        };
        return on_bytes(damaged, Limits::LISTER, size);
    }
    let most = run(&sound, &Limits::LARGEST).most;
    let limits = if rng.chance(1, 2) {
        Limits::LISTER
    } else {
        squeezed(rng, &most)
    };
    on_bytes(bytes, limits, size)
}

/// The limits at which a run that uses `most` just passes or is just refused, or passes half of it.
fn squeezed(rng: &mut Random, most: &Limits) -> Limits {
    let mut limits = Limits::LISTER;
    let name = *rng.pick(&["visits", "clauses", "atoms", "deferrals"]);
    let used = *most.clone().named(name).expect("a limit's name");
    let limit = match rng.below(3) {
        0 => used,
        1 => used.saturating_sub(1),
        _ => used / 2,
    };
    *limits.named(name).expect("a limit's name") = limit;
    limits
}

fn on_bytes(deck: Vec<u8>, limits: Limits, size: usize) -> Option<Equation> {
    if deck.len() > size {
        return None;
    }
    if let Ok(sound) = deck::read(&deck) {
        let most = run(&sound, &limits).most;
        if most.visits > size || most.atoms > size || most.clauses > size {
            return None;
        }
    }
    let answer = numbers(&answer_min_zero(&deck, &limits))?;
    Some(Equation {
        deck,
        limits,
        answer,
    })
}

/// `outcome_numbers` of the rules.
fn numbers(answer: &Answer) -> Option<Vec<u32>> {
    match answer {
        Answer::Refused(refusal) => Some(vec![refusal.number, refusal.line]),
        Answer::Accepted(listing) => {
            let mut numbers = vec![0];
            numbers.extend(listing.numbers());
            numbers.extend(listing.clause_table());
            numbers.extend(listing.atom_table());
            numbers.extend(listing.deferral_table());
            Some(numbers)
        }
        Answer::CannotHold => None,
    }
}

fn write_modules(equations: &[Equation], to: &Path) -> Result<(), Box<dyn Error>> {
    fs::create_dir_all(to)?;
    let mut root = String::new();
    for (number, part) in equations.chunks(MODULE).enumerate() {
        writeln!(root, "mod Decks{number}")?;
        fs::write(to.join(format!("Decks{number}.antt")), module(part)?)?;
    }
    fs::write(to.join("Lib.antt"), root)?;
    Ok(())
}

fn module(equations: &[Equation]) -> Result<String, std::fmt::Error> {
    let mut text = String::from(
        "use Rattle.std.specs.Prelude.{◌≡◌, refl, [], ◌∷◌}
use Rattle.rules.specs.Ascii.{ascii}
use Rattle.rules.specs.Run.{run_with, outcome_numbers}
use Rattle.rules.specs.Compute.{computed, tables}
",
    );
    for (number, equation) in equations.iter().enumerate() {
        let Limits {
            visits,
            clauses,
            atoms,
            deferrals,
            ..
        } = equation.limits;
        writeln!(
            text,
            "\nd{number} : outcome_numbers (run_with {visits} ({}) (tables {clauses} {atoms} {deferrals})) ≡ {}\nunfolding computed\nd{number} = refl",
            deck_term(&equation.deck),
            list(&equation.answer),
        )?;
    }
    Ok(text)
}

/// A deck as a text, or as a list of bytes where a text cannot hold it.
fn deck_term(deck: &[u8]) -> String {
    let plain = |&byte: &u8| {
        byte == b'\n' || (b' '..=b'~').contains(&byte) && byte != b'"' && byte != b'\\'
    };
    if deck.iter().all(plain) {
        let text = String::from_utf8_lossy(deck).replace('\n', "\\n");
        return format!("ascii \"{text}\"");
    }
    list(&deck.iter().map(|&byte| u32::from(byte)).collect::<Vec<_>>())
}

fn list(numbers: &[u32]) -> String {
    let mut text: String = numbers
        .iter()
        .map(|number| format!("{number} ∷ "))
        .collect();
    text.push_str("[]");
    text
}

/// How many equations have each answer.
fn report(equations: &[Equation]) {
    let refused = |number| equations.iter().filter(|e| e.answer[0] == number).count();
    print!("{} equations: {} accepted", equations.len(), refused(0));
    for number in 2..=12 {
        print!(", {} refused {number}", refused(number));
    }
    println!();
}
