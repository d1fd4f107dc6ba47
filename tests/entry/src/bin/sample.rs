//! Writes a sample anew: the decks of the seeds that it names, or decks with option 8 chosen of some seeds, with the original's
//! answers.

use std::error::Error;
use std::fs;

use entry::{chosen, sampled, stored_case};
use samples::sample::{Case, read, write};

fn main() -> Result<(), Box<dyn Error>> {
    let arguments: Vec<String> = std::env::args().skip(1).collect();
    let words: Vec<&str> = arguments.iter().map(String::as_str).collect();
    let (file, cases) = match words[..] {
        [file] => (file, anew(&read(&fs::read_to_string(file)?)?)?),
        [file, seed, count] => (file, chosen(seed.parse()?, count.parse()?)),
        _ => return Err("sample FILE, or sample FILE SEED COUNT".into()),
    };
    fs::write(file, write(&cases))?;
    Ok(())
}

fn anew(cases: &[Case]) -> Result<Vec<Case>, Box<dyn Error>> {
    let anew = cases.iter().map(|stored| {
        let case = stored_case(&stored.name).ok_or("a name without a seed")?;
        Ok(sampled(&case))
    });
    anew.collect()
}
