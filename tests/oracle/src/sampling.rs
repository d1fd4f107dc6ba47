//! A program of crates/ beside the original on generated decks, and samples of such decks with the original's answers.

use std::collections::BTreeMap;
use std::error::Error;
use std::fs;
use std::io::{self, Read, Write};
use std::path::Path;

use deck::damage::{damage, over_limit};
use deck::generate::{any, each, forms_at_limits};
use deck::random::Random;
use samples::run;
use samples::sample::{Case, Stored, write};

use crate::met::Met;

/// What a seed gives to read, and the original's answer to it.
#[derive(Clone, Debug)]
pub struct Drawn {
    pub kind: String,
    pub input: Vec<u8>,
    pub original: Original,
}

/// The original's answer to a deck.
#[derive(Clone, Debug)]
pub struct Original {
    pub text: Vec<u8>,
    pub is_accepted: bool,
    /// What the answer is and what it met; decks that differ here are sampled apart.
    pub answer: Vec<String>,
    /// What else is counted.
    pub notes: Vec<String>,
}

const USAGE: &str = "\
list                        the original's answer to the deck on standard input
deck SEED                   the deck of a seed
compare PROGRAM SEED COUNT  the program and the original on COUNT decks, of SEED and the seeds after it
sample FILE SEED COUNT      a sample of the decks of such a run
";

/// Does what the arguments of the process ask for. `each`: as in [`sampled`].
///
/// # Errors
/// If the arguments are others, or if what they ask for fails.
pub fn command(
    each: [usize; 2],
    original: impl Fn(&[u8]) -> Original,
) -> Result<(), Box<dyn Error>> {
    let draw = |seed| {
        let (kind, input) = drawn(seed);
        let mut original = original(&input);
        if kind.ends_with("damaged") || kind == "Over" {
            original.notes.push("damaged".into());
        }
        Drawn {
            kind,
            input,
            original,
        }
    };
    let arguments: Vec<String> = std::env::args().skip(1).collect();
    let words: Vec<&str> = arguments.iter().map(String::as_str).collect();
    match *words.as_slice() {
        ["list"] => {
            let mut deck = Vec::new();
            std::io::stdin().read_to_end(&mut deck)?;
            std::io::stdout().write_all(&original(&deck).text)?;
        }
        ["deck", seed] => std::io::stdout().write_all(&drawn(seed.parse()?).1)?,
        ["compare", program, seed, count] => {
            let program = |deck: &[u8]| run(Path::new(program), deck);
            compare(seed.parse()?, count.parse()?, draw, program)?;
        }
        ["sample", file, seed, count] => {
            let cases = sampled(seed.parse()?, count.parse()?, each, draw);
            fs::write(file, write(&cases))?;
        }
        _ => return Err(USAGE.into()),
    }
    Ok(())
}

/// The deck of a seed, and what it is.
#[must_use]
pub fn drawn(seed: u64) -> (String, Vec<u8>) {
    let mut rng = Random::new(seed);
    match rng.weighted(&[48, 20, 22, 8, 1, 1]) {
        0 => {
            let (shape, deck) = any(&mut rng);
            (format!("{shape:?}"), deck::write(&deck))
        }
        1 => {
            let (shape, deck) = each(&mut rng);
            (format!("{shape:?}"), deck::write(&deck))
        }
        2 => {
            let (shape, deck) = any(&mut rng);
            (
                format!("{shape:?} damaged"),
                damage(&mut rng, &deck::write(&deck)),
            )
        }
        3 => {
            let (shape, deck) = each(&mut rng);
            (
                format!("{shape:?} damaged"),
                damage(&mut rng, &deck::write(&deck)),
            )
        }
        4 => ("Over".into(), over_limit(&mut rng)),
        _ => ("Forms".into(), deck::write(&forms_at_limits(&mut rng))),
    }
}

/// Runs what is compared on the inputs of `count` seeds, and prints how many met what.
///
/// # Errors
/// If it cannot be run, or if it differs from the original.
pub fn compare(
    seed: u64,
    count: u64,
    draw: impl Fn(u64) -> Drawn,
    run: impl Fn(&[u8]) -> io::Result<Vec<u8>>,
) -> Result<(), Box<dyn Error>> {
    let mut met = Met::default();
    let mut different = 0;
    for seed in seed..seed + count {
        let Drawn {
            kind,
            input,
            original,
        } = draw(seed);
        let answer = run(&input).map_err(|error| format!("seed {seed} ({kind}): {error}"))?;
        if answer != original.text {
            different += 1;
            println!("seed {seed} ({kind}): it differs from the original");
        }
        for what in original.answer.into_iter().chain(original.notes) {
            met.note(what);
        }
    }
    println!("{count} from seed {seed} on: {different} differences");
    met.print();
    if different > 0 {
        return Err("it differs from the original".into());
    }
    Ok(())
}

/// Bytes of a short deck.
const SHORT: usize = 2_000;

/// Of what the seeds of a run give, of each kind with each answer: short ones, or the shortest. `each`: how many short ones
/// at most with a refusal, and how many accepted ones.
pub fn sampled(seed: u64, count: u64, each: [usize; 2], draw: impl Fn(u64) -> Drawn) -> Vec<Case> {
    let mut groups: BTreeMap<(String, Vec<String>), Vec<Case>> = BTreeMap::new();
    for seed in seed..seed + count {
        let Drawn {
            kind,
            input,
            original,
        } = draw(seed);
        let group = groups.entry((kind.clone(), original.answer)).or_default();
        let is_short = input.len() <= SHORT;
        let has_long = group.first().is_some_and(|case| case.deck.len() > SHORT);
        if has_long && input.len() < group[0].deck.len() {
            group.clear();
        }
        let most = each[usize::from(original.is_accepted)];
        if group.is_empty() || is_short && group.len() < most {
            group.push(Case {
                name: format!("{seed} {kind}"),
                answer: Stored::of(&original.text),
                deck: input,
            });
        }
    }
    groups.into_values().flatten().collect()
}
