//! The decks of tests/decided with the original's answers, as the table `decided` of the rules.

use std::fmt::Write as _;
use std::fs;
use std::io;
use std::path::{Path, PathBuf};

use crate::{Answer, Limits, answer};

/// The folder of the decks, and the table's file.
#[must_use]
pub fn paths() -> (PathBuf, PathBuf) {
    let repository = Path::new(env!("CARGO_MANIFEST_DIR")).join("../..");
    (
        repository.join("tests/decided"),
        repository.join("crates/rules/specs/Decided.antt"),
    )
}

/// The table's text.
///
/// # Errors
/// If a deck cannot be read.
pub fn table(folder: &Path) -> io::Result<String> {
    let mut decks: Vec<PathBuf> = fs::read_dir(folder)?
        .map(|entry| entry.map(|entry| entry.path()))
        .collect::<io::Result<_>>()?;
    decks.retain(|path| {
        path.extension()
            .is_some_and(|extension| extension == "deck")
    });
    decks.sort();
    let mut text = String::from(HEAD);
    for path in decks {
        let bytes = fs::read(&path)?;
        let limits = limits_beside(&path)?;
        let answer = answer(&bytes, &limits);
        let name = path
            .file_stem()
            .unwrap_or_default()
            .to_string_lossy()
            .replace('_', " ");
        write_case(&mut text, &name, &bytes, &limits, &answer).expect("a text takes all");
    }
    text.push_str("    []\n");
    Ok(text)
}

/// The lister's limits, with those that a `.limits` file beside the deck names.
fn limits_beside(deck: &Path) -> io::Result<Limits> {
    let mut limits = Limits::LISTER;
    let file = deck.with_extension("limits");
    let text = if file.exists() {
        fs::read_to_string(file)?
    } else {
        String::new()
    };
    for line in text.lines() {
        let (name, number) = line.split_once(' ').ok_or(io::ErrorKind::InvalidData)?;
        *limits.named(name).ok_or(io::ErrorKind::InvalidData)? =
            number.parse().map_err(|_| io::ErrorKind::InvalidData)?;
    }
    Ok(limits)
}

const HEAD: &str = "-- Decks with the Rust's answers that decide what the [P] cases leave open; with option 4 or 8, which the Rust has not,
-- those of its instrumented copy. Written by tests/decided/make from the decks there; the proof over this table is in Cases.
use mathlib.Core.List.{List, [], ◌∷◌}
use Rattle.std.specs.Prelude.{ℕ}
use Prim.Native.String.{String}

-- a deck's lines; the limit of visits and the records of the three tables; the listing's lines; the deferrals, axiom line and
-- kind
pub record Decided : Type 0 where
  pub deck : List String
  pub visits : ℕ
  pub clauses : ℕ
  pub atoms : ℕ
  pub deferred : ℕ
  pub listing : List String
  pub deferrals : List (ℕ × ℕ)

abbrev pub decided : List Decided
decided =
";

fn write_case(
    text: &mut String,
    name: &str,
    deck: &[u8],
    limits: &Limits,
    answer: &Answer,
) -> std::fmt::Result {
    let Limits {
        visits,
        clauses,
        atoms,
        deferrals: deferred,
        ..
    } = limits;
    let deferrals: String = match answer {
        Answer::Accepted(listing) => listing
            .deferrals
            .iter()
            .map(|(line, kind)| format!("({line}, {kind}) ∷ "))
            .collect(),
        Answer::Refused(_) | Answer::CannotHold => String::new(),
    };
    writeln!(text, "    -- {name}")?;
    writeln!(text, "    record {{")?;
    writeln!(text, "      deck ={};", lines(deck))?;
    writeln!(text, "      visits = {visits};")?;
    writeln!(text, "      clauses = {clauses};")?;
    writeln!(text, "      atoms = {atoms};")?;
    writeln!(text, "      deferred = {deferred};")?;
    writeln!(text, "      listing ={};", lines(&answer.write()))?;
    writeln!(text, "      deferrals = {deferrals}[];")?;
    writeln!(text, "    }} ∷")
}

/// The lines as a list of texts, each on a line of its own.
fn lines(bytes: &[u8]) -> String {
    let text = String::from_utf8_lossy(bytes);
    let mut list: String = text
        .lines()
        .map(|line| format!("\n          \"{line}\" ∷"))
        .collect();
    list.push_str(" []");
    list
}
