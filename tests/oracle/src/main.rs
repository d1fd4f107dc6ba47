//! The original's answers from the command line.

use std::error::Error;
use std::fs;
use std::io::{Read, Write};
use std::path::{Path, PathBuf};
use std::process::ExitCode;

use deck::generate::{Shape, any, generate};
use deck::random::Random;
use oracle::{Answer, Limits, answer};

const USAGE: &str = "\
oracle list [--limit NAME=N]..         the listing of the deck on standard input
oracle deferrals [--limit NAME=N]..    its deferrals: axiom line and kind
oracle generate --seed S --count N [--shape NAME] --to DIR
                                       decks as DIR/NUMBER-SHAPE.deck
oracle answers [--limit NAME=N].. DIR  beside each .deck its .listing and its .deferrals
The limits are the lister's; NAME is one of visits, pool, members, in_hand, clauses, atoms, deferrals.
";

type Outcome = Result<(), Box<dyn Error>>;

fn main() -> ExitCode {
    let mut arguments = std::env::args().skip(1);
    let command = arguments.next().unwrap_or_default();
    let outcome = match command.as_str() {
        "list" => print_answer(arguments, Answer::write),
        "deferrals" => print_answer(arguments, Answer::write_deferrals),
        "generate" => generate_decks(arguments),
        "answers" => write_answers(arguments),
        _ => Err(USAGE.into()),
    };
    if let Err(error) = outcome {
        eprintln!("{error}");
        return ExitCode::FAILURE;
    }
    ExitCode::SUCCESS
}

fn print_answer(arguments: impl Iterator<Item = String>, form: fn(&Answer) -> Vec<u8>) -> Outcome {
    let (limits, rest) = limits(arguments)?;
    if !rest.is_empty() {
        return Err(USAGE.into());
    }
    let mut deck = Vec::new();
    std::io::stdin().read_to_end(&mut deck)?;
    std::io::stdout().write_all(&form(&answer(&deck, &limits)))?;
    Ok(())
}

/// The lister's limits with those of the arguments in their place, and the other arguments.
fn limits(
    mut arguments: impl Iterator<Item = String>,
) -> Result<(Limits, Vec<String>), Box<dyn Error>> {
    let mut limits = Limits::LISTER;
    let mut rest = Vec::new();
    while let Some(argument) = arguments.next() {
        if argument == "--limit" {
            let limit = arguments.next().ok_or(USAGE)?;
            let (name, number) = limit.split_once('=').ok_or(USAGE)?;
            *limits.named(name).ok_or(USAGE)? = number.parse()?;
        } else {
            rest.push(argument);
        }
    }
    Ok((limits, rest))
}

fn generate_decks(mut arguments: impl Iterator<Item = String>) -> Outcome {
    let (mut seed, mut count, mut shape, mut to) = (None, None, None, None);
    while let Some(name) = arguments.next() {
        let value = arguments.next().ok_or(USAGE)?;
        match name.as_str() {
            "--seed" => seed = Some(value.parse::<u64>()?),
            "--count" => count = Some(value.parse::<u32>()?),
            "--shape" => shape = Some(shape_named(&value)?),
            "--to" => to = Some(PathBuf::from(value)),
            _ => return Err(USAGE.into()),
        }
    }
    let (seed, count, to) = (seed.ok_or(USAGE)?, count.ok_or(USAGE)?, to.ok_or(USAGE)?);
    let mut rng = Random::new(seed);
    fs::create_dir_all(&to)?;
    for number in 0..count {
        let (shape, deck) = match shape {
            Some(shape) => (shape, generate(&mut rng, shape)),
            None => any(&mut rng),
        };
        let name = format!("{number:06}-{shape:?}.deck").to_lowercase();
        fs::write(to.join(name), deck::write(&deck))?;
    }
    Ok(())
}

fn shape_named(name: &str) -> Result<Shape, String> {
    let mut shapes = Shape::ALL.into_iter();
    shapes
        .find(|shape| format!("{shape:?}").eq_ignore_ascii_case(name))
        .ok_or(format!("the shapes are {:?}", Shape::ALL))
}

fn write_answers(arguments: impl Iterator<Item = String>) -> Outcome {
    let (limits, rest) = limits(arguments)?;
    let [folder] = rest.as_slice() else {
        return Err(USAGE.into());
    };
    for entry in fs::read_dir(Path::new(folder))? {
        let path = entry?.path();
        if path.extension().is_none_or(|extension| extension != "deck") {
            continue;
        }
        let answer = answer(&fs::read(&path)?, &limits);
        fs::write(path.with_extension("listing"), answer.write())?;
        fs::write(path.with_extension("deferrals"), answer.write_deferrals())?;
    }
    Ok(())
}
