//! The proved library's session and the second reading on written and on generated calls. The last line is 'N passed, M failed'.

use std::error::Error;
use std::process::ExitCode;

use session::{Library, Until, compare, compare_written};

const USAGE: &str = "session SEED COUNT, or session SEED --seconds N";

fn main() -> Result<ExitCode, Box<dyn Error>> {
    let arguments: Vec<String> = std::env::args().skip(1).collect();
    let words: Vec<&str> = arguments.iter().map(String::as_str).collect();
    let (seed, until) = match words[..] {
        [seed, "--seconds", seconds] => (seed.parse()?, Until::Seconds(seconds.parse()?)),
        [seed, count] => (seed.parse()?, Until::Count(count.parse()?)),
        _ => return Err(USAGE.into()),
    };
    // Some calls once more need no others.
    let is_all = matches!(until, Until::Seconds(_));
    let good =
        (!is_all || compare_written(&Library::PROVED)) && compare(&Library::PROVED, seed, &until);
    Ok(if good {
        ExitCode::SUCCESS
    } else {
        ExitCode::FAILURE
    })
}
