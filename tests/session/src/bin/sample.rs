//! Writes a sample anew: the runs that it names, or those chosen of some seeds, with the second reading's and the original's
//! answers.

use std::error::Error;
use std::fs;

use samples::sample::{Case, read, write};
use session::sampled::{chosen, named};

fn main() -> Result<(), Box<dyn Error>> {
    let arguments: Vec<String> = std::env::args().skip(1).collect();
    let words: Vec<&str> = arguments.iter().map(String::as_str).collect();
    let (file, cases) = match words[..] {
        [file] => {
            let cases = read(&fs::read_to_string(file)?)?;
            let anew = cases.iter().map(|case| named(&case.name));
            let anew: Option<Vec<Case>> = anew.collect();
            (file, anew.ok_or("a name that leads to no run")?)
        }
        [file, seed, count] => (file, chosen(seed.parse()?, count.parse()?)),
        _ => return Err("sample FILE, or sample FILE SEED COUNT".into()),
    };
    fs::write(file, write(&cases))?;
    Ok(())
}
