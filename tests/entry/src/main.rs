//! The proved library and the original on generated decks. The last line is 'N passed, M failed'.

use std::error::Error;
use std::process::ExitCode;

use entry::{Decks, Until, compare};
use lent::gorvask_clausify_with_stats;

const USAGE: &str =
    "entry [--dwell | --limits | --follow] SEED COUNT, or the same with SEED --seconds N";

fn main() -> Result<ExitCode, Box<dyn Error>> {
    let arguments: Vec<String> = std::env::args().skip(1).collect();
    let words: Vec<&str> = arguments.iter().map(String::as_str).collect();
    let (decks, rest) = match words.as_slice() {
        ["--dwell", rest @ ..] => (Decks::Dwelling, rest),
        ["--limits", rest @ ..] => (Decks::Limits, rest),
        ["--follow", rest @ ..] => (Decks::Following, rest),
        all => (Decks::Any, all),
    };
    let (seed, until) = match *rest {
        [seed, "--seconds", seconds] => (seed.parse()?, Until::Seconds(seconds.parse()?)),
        [seed, count] => (seed.parse()?, Until::Count(count.parse()?)),
        _ => return Err(USAGE.into()),
    };
    let good = compare(gorvask_clausify_with_stats, decks, seed, &until);
    Ok(if good {
        ExitCode::SUCCESS
    } else {
        ExitCode::FAILURE
    })
}
