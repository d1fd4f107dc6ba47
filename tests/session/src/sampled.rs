//! Runs to be stored, with the second reading's and the original's answers.

use std::collections::HashMap;

use entry::Outcome;
use samples::sample::{Case as Sampled, Stored};

use crate::call::Caller;
use crate::case::{Case, case};
use crate::compare::play;
use crate::draw::answer;
use crate::expected::Reply;
use crate::mock::{Fault, erring};
use crate::steps::{Call, Player, Step};
use crate::stored;
use crate::written::{Written, all};

/// Before the name of a run that is written by hand; before the others stands the seed.
const WRITTEN: &str = "written ";

/// The run that a stored name leads back to.
#[must_use]
pub fn named(name: &str) -> Option<Sampled> {
    if let Some(written) = name.strip_prefix(WRITTEN) {
        return all().iter().find(|one| one.name == written).map(of_written);
    }
    let (seed, _) = name.split_once(' ')?;
    Some(of_case(&case(seed.parse().ok()?)))
}

fn of_case(case: &Case) -> Sampled {
    let name = format!("{} {}", case.seed, case.kind);
    let steps = case.steps.iter().map(|planned| &planned.step);
    sampled(name, steps.collect())
}

fn of_written(written: &Written) -> Sampled {
    let name = format!("{WRITTEN}{}", written.name);
    sampled(name, written.steps.iter().map(|(step, _)| step).collect())
}

fn sampled(name: String, steps: Vec<&Step>) -> Sampled {
    Sampled {
        name,
        deck: stored::input(steps.iter().copied()),
        answer: Stored::of(&text(&steps)),
    }
}

/// What the calls must leave, as text.
fn text(steps: &[&Step]) -> Vec<u8> {
    let mut player = Player::default();
    let mut out = Vec::new();
    for step in steps {
        let table = player.lent(step);
        let expected = player.expected(step, &table);
        let taken = taken(step, &expected.reply);
        let reply = match (&taken, &expected.reply) {
            (Some(outcome), _) => outcome.reply,
            (None, Reply::Of(Err(refusal))) => crate::code(*refusal),
            (None, _) => 0,
        };
        let rows = taken.map_or_else(Vec::new, |outcome| outcome.write());
        stored::write_left(reply, &table, &expected.session, &rows, &mut out);
        player.go_on(step, reply, &expected.session);
    }
    out
}

/// Of a taking what it leaves.
fn taken(step: &Step, reply: &Reply) -> Option<Outcome> {
    match (&step.call, reply) {
        (Call::Take(sizes), Reply::OfRun(deck)) => Some(answer(deck, *sizes)),
        (Call::Take(_), Reply::Of(Err(refusal))) => Some(Outcome::from(*refusal)),
        _ => None,
    }
}

/// Bytes that a run takes in the file.
const SHORT: usize = 3_500;
/// How often the sample meets what a comparison meets.
const TIMES: usize = 4;

/// A sample: all that is written by hand, and of the seeds those that meet what was not met often enough.
#[must_use]
pub fn chosen(seed: u64, count: u64) -> Vec<Sampled> {
    let mut chosen: Vec<Sampled> = all().iter().map(of_written).collect();
    let mut met: HashMap<String, usize> = HashMap::new();
    for seed in seed..seed + count {
        let case = case(seed);
        let all = met_by(&case);
        let times = |what: &String| met.get(what).copied().unwrap_or(0);
        if all.iter().all(|what| times(what) >= TIMES) {
            continue;
        }
        let sampled = of_case(&case);
        if samples::sample::write(std::slice::from_ref(&sampled)).len() <= SHORT {
            all.into_iter()
                .for_each(|what| *met.entry(what).or_default() += 1);
            chosen.push(sampled);
        }
    }
    chosen
}

/// What a case meets, played with the stand-in.
fn met_by(case: &Case) -> Vec<String> {
    let mut caller = Caller::default();
    let played = play(&mut caller, &erring(Fault::None), case, u64::MAX);
    played.map_or_else(|_| Vec::new(), |(_, met)| met)
}
