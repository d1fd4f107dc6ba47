//! The library and the second reading, call after call, up to the first difference.

use std::time::{Duration, Instant};

use deck::random::Random;
use oracle::met::Met;
use samples::sample::lines;

use crate::call::{Caller, Library, code, tell};
use crate::case::{Case, Played, case, gone_on};
use crate::draw;
use crate::expected::Reply;
use crate::steps::{Call, Change, Player, Step};
use crate::written::{self, Written};

/// How far a comparison goes: so many calls, or so long; then it must have met everything.
pub enum Until {
    Count(u64),
    Seconds(u64),
}

impl Until {
    fn has_come(&self, done: u64, begun: Instant) -> bool {
        match *self {
            Self::Count(count) => done >= count,
            Self::Seconds(seconds) => begun.elapsed() >= Duration::from_secs(seconds),
        }
    }

    /// Calls that are still to be made.
    fn left(&self, done: u64) -> u64 {
        match *self {
            Self::Count(count) => count - done,
            Self::Seconds(_) => u64::MAX,
        }
    }
}

/// What a comparison must meet.
#[must_use]
pub fn must() -> Vec<String> {
    let replies: [(&str, &[u32]); 5] = [
        ("start", &[1, 2, 3, 4, 5, 6, 7, 8, 9]),
        ("add", &[1, 2, 3, 4, 5]),
        ("strike", &[1, 15]),
        ("options", &[1, 4]),
        ("take", &[1, 10, 11, 12]),
    ];
    let done = replies.map(|(name, _)| format!("{name}: done"));
    let refused = replies.into_iter().flat_map(|(name, numbers)| {
        let told = move |number| format!("{name}: refused {number}");
        numbers.iter().map(told)
    });
    let others = ["start", "add"].map(|name| format!("{name}: refused 2 at line 0"));
    let options = (0..=deck::limits::OPTIONS).map(|options| format!("options {options}"));
    done.into_iter()
        .chain(refused)
        .chain(others)
        .chain(options)
        .chain([10, 11, 12].map(gone_on))
        .chain(draw::must())
        .collect()
}

/// Names the seed whose run is under work where that panics.
struct UnderWork(u64);

impl Drop for UnderWork {
    fn drop(&mut self) {
        if std::thread::panicking() {
            println!("failed: seed {}: a panic", self.0);
        }
    }
}

/// A difference, and at which call, from 0.
pub struct Difference {
    pub call: usize,
    pub told: String,
}

/// Plays the first calls of a case, and tells how many were made and what they met.
///
/// # Errors
/// The first difference.
pub fn play(
    caller: &mut Caller,
    library: &Library,
    case: &Case,
    most: u64,
) -> Result<(u64, Vec<String>), Difference> {
    let mut played = Played::new(caller, library, case.rng.clone());
    let most = usize::try_from(most).unwrap_or(usize::MAX);
    let mut all = Vec::new();
    let mut done = 0;
    for (call, planned) in case.steps.iter().take(most).enumerate() {
        let answer = planned.answer.as_ref();
        let (_, met) = played
            .play(&planned.step, answer)
            .map_err(|told| Difference { call, told })?;
        all.extend(met);
        all.extend(planned.met.iter().cloned());
        done += 1;
    }
    Ok((done, all))
}

/// Plays the runs of one seed after the other, prints what they met, and whether all is well: there is no difference, and all that
/// must be met is. The last line is 'N passed, M failed'.
#[must_use]
pub fn compare(library: &Library, seed: u64, until: &Until) -> bool {
    println!("from seed {seed} on:");
    let begun = Instant::now();
    let mut caller = Caller::default();
    let mut met = Met::default();
    let (mut runs, mut done) = (0, 0);
    let mut is_different = false;
    while !is_different && !until.has_come(done, begun) {
        let seed = seed.wrapping_add(runs);
        let _under_work = UnderWork(seed);
        let case = case(seed);
        match play(&mut caller, library, &case, until.left(done)) {
            Ok((calls, all)) => {
                done += calls;
                all.iter().for_each(|what| met.note(what));
            }
            Err(difference) => {
                is_different = true;
                done += difference.call as u64 + 1;
                tell_difference(&mut caller, library, &case, &difference);
            }
        }
        runs += 1;
    }
    let seconds = begun.elapsed().as_secs_f64();
    println!("{done} calls in {runs} runs from seed {seed} on, in {seconds:.1} s");
    met.print();
    sum(&met, is_different, until)
}

/// Tells of a case's first difference: the calls up to it, the live deck before it, and the fewest calls found that still differ.
fn tell_difference(caller: &mut Caller, library: &Library, case: &Case, difference: &Difference) {
    let Case { seed, kind, .. } = case;
    let Difference { call, told } = difference;
    let number = call + 1;
    println!("failed: seed {seed} ({kind}), call {number}: {told}");
    println!("once more: tests/session/run {seed} {number}");
    let steps: Vec<&Step> = case.steps[..number].iter().map(|one| &one.step).collect();
    tell_steps(&steps);
    let (few, told) = fewer(caller, library, case, number);
    if few.len() < number {
        println!("the fewest calls found that differ: {told}");
        tell_steps(&few.iter().collect::<Vec<&Step>>());
    }
}

/// Prints each call, and the live deck before the last.
fn tell_steps(steps: &[&Step]) {
    let mut player = Player::default();
    for (number, step) in (1..).zip(steps) {
        if number == steps.len() {
            let live = player.session().map(|live| lines(&live.text()));
            match live {
                Some(live) => println!("the live deck before the last call:\n{live}"),
                None => println!("there is no session before the last call"),
            }
        }
        let table = player.lent(step);
        let expected = player.expected(step, &table);
        let (reply, asked) = match expected.reply {
            Reply::Of(did) => {
                let reply = did.err().map_or(0, code);
                (reply, tell(reply))
            }
            Reply::OfRun(_) => (0, "a run of the live deck".into()),
        };
        println!("{number}. {}: expected {asked}", told(step));
        player.go_on(step, reply, &expected.session);
    }
}

/// A text that is printed whole up to so many bytes.
const SHOWN: usize = 160;

/// A step in a line.
fn told(step: &Step) -> String {
    let text = |text: &[u8]| match text.len() {
        0..=SHOWN => format!("\"{}\"", text.escape_ascii()),
        bytes => format!("{bytes} bytes"),
    };
    let call = match &step.call {
        Call::Start(deck) => text(deck),
        Call::Add(line) => text(line),
        Call::Strike(number) | Call::Options(number) => number.to_string(),
        Call::Take(sizes) => format!("{sizes:?}"),
    };
    let change = match &step.change {
        Change::None => String::new(),
        Change::Text(changed) => format!(", its table changed: {}", text(changed)),
        other => format!(", its table changed: {other:?}"),
    };
    let sizes = match (step.session, step.scratch) {
        (lent::SESSION, lent::SCRATCH) => String::new(),
        (session, scratch) => format!(", session {session} and scratch {scratch} bytes"),
    };
    format!("{} {call}{change}{sizes}", step.call.name())
}

/// The first calls of a case, without those that a difference needs not, and the difference.
fn fewer(
    caller: &mut Caller,
    library: &Library,
    case: &Case,
    number: usize,
) -> (Vec<Step>, String) {
    let planned = case.steps[..number].iter();
    let mut steps: Vec<Step> = planned.map(|one| one.step.clone()).collect();
    let mut told = String::new();
    let mut difference = |steps: &[Step]| {
        let mut played = Played::new(caller, library, Random::new(case.seed));
        let mut calls = steps.iter().map(|step| played.play(step, None));
        calls.find_map(Result::err)
    };
    for place in (0..number).rev() {
        let mut less = steps.clone();
        less.remove(place);
        if let Some(other) = difference(&less) {
            (steps, told) = (less, other);
        }
    }
    (steps, told)
}

/// Plays what is written by hand, and tells how many calls there are, or of the first difference.
fn written(library: &Library) -> Result<usize, String> {
    let mut caller = Caller::default();
    let mut calls = 0;
    for Written { name, steps } in written::all() {
        let mut played = Played::new(&mut caller, library, Random::new(0));
        for (number, (step, asked)) in (1..).zip(&steps) {
            let place = || format!("{name}, call {number}");
            let played = played.play(step, None);
            let (reply, _) = played.map_err(|told| format!("{}: {told}", place()))?;
            if reply != *asked {
                let [told, asked] = [reply, *asked].map(tell);
                return Err(format!("{}: the reply is {told}, not {asked}", place()));
            }
            calls += 1;
        }
    }
    Ok(calls)
}

/// [`written`], printed; the last line is as of [`compare`].
#[must_use]
pub fn compare_written(library: &Library) -> bool {
    match written(library) {
        Ok(calls) => {
            println!("{calls} calls written by hand");
            true
        }
        Err(difference) => {
            println!("failed: {difference}");
            println!("0 passed, 1 failed");
            false
        }
    }
}

/// Prints what is missing and the last line, and tells whether nothing failed.
fn sum(met: &Met, is_different: bool, until: &Until) -> bool {
    // A comparison that ended early, or of a few calls, need not meet everything.
    let must = match until {
        Until::Seconds(_) if !is_different => must(),
        _ => Vec::new(),
    };
    let missing: Vec<&String> = must.iter().filter(|what| met.times(what) == 0).collect();
    for what in &missing {
        println!("failed: {what}: 0");
    }
    let passed = must.len() - missing.len() + usize::from(!is_different);
    let failed = missing.len() + usize::from(is_different);
    println!("{passed} passed, {failed} failed");
    failed == 0
}
