//! `gorvask try`: a state of the layout against the axioms and the clauses of a deck.

mod assigned;
mod axiom;
mod kinds;
mod refused;
mod rows;
mod together;
mod words;

use gorvask::{Provisos, Refusal, Test, Tester, Trial, Tried};

use crate::arguments::{Arguments, Files, Form};
use crate::ended::{Failure, Status, tell};
use crate::input::Input;
use crate::names::{self, NamesFile};
use crate::output;
use crate::subcommand::Subcommand;
use together::Together;
use words::Words;

const AXIOMS: &str = "--axioms";
const CLAUSES: &str = "--clauses";
const ROWS: &str = "--rows";

const fn flag(name: &'static str) -> Form {
    Form { name, value: None }
}

pub const SUBCOMMAND: Subcommand = Subcommand {
    name: "try",
    files: Files::DeckAndState,
    options: &[flag(AXIOMS), flag(CLAUSES), flag(ROWS), names::FORM],
    run,
};

/// What the tests say, in their order.
#[derive(Default)]
struct Answer {
    verdicts: Vec<(Test, Tried)>,
    /// The verdicts in words, and what they mean together.
    words: String,
    /// What kept the next test from a verdict, and so all behind it.
    refusal: Option<Refusal>,
    /// Why clauses that hold need not say every rule of the deck, where they alone were tested.
    unpromised: Option<Provisos>,
}

fn run(arguments: &Arguments) -> Result<Status, Failure> {
    let file = NamesFile::read(arguments)?;
    let deck = Input::deck(arguments.deck())?;
    let state = Input::state(arguments.state())?;
    let answer = answer(&tests(arguments), &deck, &state, &file)?;
    output::write(|out| match arguments.option(ROWS) {
        Some(_) => rows::print(&answer, out),
        None => out.write_all(answer.words.as_bytes()),
    })?;
    if let Some(provisos) = &answer.unpromised {
        tell(&format!("{}: accepted, {provisos}", deck.name))?;
    }
    match answer.refusal {
        Some(refusal) => refused::explain(&deck, &state, refusal, &file),
        None => Ok(status(&answer.verdicts)),
    }
}

/// The tests that are asked for: with neither option, both.
fn tests(arguments: &Arguments) -> Vec<Test> {
    let all = [(AXIOMS, Test::Axioms), (CLAUSES, Test::Clauses)];
    let is_asked = |option: &str| arguments.option(option).is_some();
    let asks_both = all.iter().all(|(option, _)| !is_asked(option));
    let asked = |(option, test)| (asks_both || is_asked(option)).then_some(test);
    all.into_iter().filter_map(asked).collect()
}

/// Makes the tests, up to one that is refused.
fn answer(
    tests: &[Test],
    deck: &Input,
    state: &Input,
    file: &NamesFile,
) -> Result<Answer, Failure> {
    let mut tester = Tester::new();
    let mut answer = Answer::default();
    let mut together = Together::default();
    for &test in tests {
        match tester.try_state(test, &deck.bytes, &state.bytes) {
            Ok(trial) => {
                let names = file.fitting(trial.clauses.header())?;
                let words = Words { deck, names };
                answer.words.push_str(&words.of(test, &trial));
                together.take(test, &trial, deck);
                if tests == [Test::Clauses] {
                    answer.unpromised = unpromised(&trial);
                }
                answer.verdicts.push((test, trial.tried));
            }
            Err(refusal) => {
                answer.refusal = Some(refusal);
                return Ok(answer);
            }
        }
    }
    answer.words.push_str(&together.words());
    Ok(answer)
}

/// The provisos that are not met, where the clauses hold.
fn unpromised(trial: &Trial<'_>) -> Option<Provisos> {
    let provisos = trial.clauses.provisos();
    (trial.tried == Tried::Holds && !provisos.are_met()).then_some(provisos)
}

fn status(verdicts: &[(Test, Tried)]) -> Status {
    let holds = |(_, tried): &(Test, Tried)| *tried == Tried::Holds;
    if verdicts.iter().all(holds) {
        Status::Whole
    } else {
        Status::Broken
    }
}
