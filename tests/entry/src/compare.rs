//! The library and the original, deck after deck, up to the first difference.

use std::time::{Duration, Instant};

use deck::generate::Shape;
use deck::limits::OPTIONS;
use lent::Clausify;
use oracle::met::{DEFERRAL_KINDS, ENDS, LATE_PASSES, Met, SETTLED, all_followed};
use samples::sample::lines;

use crate::call::Call;
use crate::case::{
    AFTER_THE_AXIOMS, BY_CONCEPTS, BY_MEMBERS, Case, Decks, IN_AN_AXIOM, LAST_VISIT, LONG,
    MIN_ZERO, NO_TABLES, OTHER, WIDE, case,
};
use crate::decks;
use crate::diagnosed;
use crate::sizes::WRONG;

/// How far a comparison goes.
pub enum Until {
    Count(u64),
    Seconds(u64),
}

impl Until {
    fn has_come(&self, done: u64, begun: Instant) -> bool {
        match *self {
            Self::Count(count) => done == count,
            Self::Seconds(seconds) => begun.elapsed() >= Duration::from_secs(seconds),
        }
    }
}

/// What a comparison must meet.
#[must_use]
pub fn must() -> Vec<String> {
    let refusals = (1..=12).map(|number| format!("refused {number}"));
    let kinds = DEFERRAL_KINDS.map(|kind| format!("deferral {kind}"));
    let options = (0..=OPTIONS).map(|options| format!("options {options}"));
    let shapes = Shape::ALL.map(decks::name);
    let others = [
        "accepted",
        LONG,
        MIN_ZERO,
        LAST_VISIT,
        NO_TABLES,
        IN_AN_AXIOM,
        AFTER_THE_AXIOMS,
        BY_CONCEPTS,
        BY_MEMBERS,
    ];
    let told = others.iter().chain(&LATE_PASSES).chain(&ENDS).chain(&WRONG);
    refusals
        .chain(kinds)
        .chain(options)
        .chain(shapes)
        .chain(told.map(|&what| what.to_owned()))
        .collect()
}

/// What the decks that dwell on the later passes must meet.
#[must_use]
pub fn must_dwelling() -> Vec<String> {
    let own = ["accepted", "refused 12", WIDE];
    let told = own.iter().chain(&LATE_PASSES).chain(&ENDS[..3]);
    told.map(|&what| what.to_owned()).collect()
}

/// What the decks of option 4 must meet.
#[must_use]
pub fn must_limits() -> Vec<String> {
    let options = (4..8).map(|options| format!("options {options}"));
    let told = SETTLED.iter().map(|&what| what.to_owned());
    options.chain(told).collect()
}

/// What the decks of option 8 must meet.
#[must_use]
pub fn must_following() -> Vec<String> {
    let options = (8..=OPTIONS).map(|options| format!("options {options}"));
    let own = ["refused 12", WIDE, OTHER];
    let passes = [0, 3, 4].map(|place| LATE_PASSES[place]);
    let told = own.into_iter().chain(passes).map(str::to_owned);
    options.chain(told).chain(all_followed()).collect()
}

/// What a part of the decks met.
#[derive(Default)]
struct Part {
    met: Met,
    done: u64,
}

impl Part {
    /// What the part must meet, and how often it did.
    fn must<'a>(
        &'a self,
        name: &'a str,
        must: Vec<String>,
    ) -> impl Iterator<Item = (String, usize)> + 'a {
        must.into_iter().map(move |what| {
            let times = self.met.times(&what);
            (format!("{name}{what}"), times)
        })
    }
}

/// What the decks met.
#[derive(Default)]
struct Figures {
    all: Part,
    /// Those that dwell on the later passes.
    dwelling: Part,
    /// Those of option 4.
    limits: Part,
    /// Those of option 8.
    following: Part,
    is_different: bool,
}

impl Figures {
    fn note(&mut self, case: &Case) {
        self.all.done += 1;
        let part = match case.part {
            Decks::Any => None,
            Decks::Dwelling => Some(&mut self.dwelling),
            Decks::Limits => Some(&mut self.limits),
            Decks::Following => Some(&mut self.following),
        };
        let of_parts = [WIDE, OTHER];
        let of_all = |what: &&String| !of_parts.contains(&what.as_str());
        for what in case.met.iter().filter(of_all) {
            self.all.met.note(what);
        }
        if let Some(part) = part {
            part.done += 1;
            for what in &case.met {
                part.met.note(what);
            }
        }
    }

    fn print(&self, decks: Decks) {
        if decks == Decks::Any {
            self.all.met.print();
            let done = self.dwelling.done;
            println!("of these decks {done} dwell on the later passes:");
        }
        self.dwelling.met.print();
        if decks == Decks::Any {
            println!("{} are of option 4 alone:", self.limits.done);
        }
        self.limits.met.print();
        if decks == Decks::Any {
            println!("and {} are of option 8:", self.following.done);
        }
        self.following.met.print();
    }

    /// What must be met, and how often it was.
    fn must(&self, decks: Decks) -> Vec<(String, usize)> {
        let dwelling = || {
            let name = "dwelling on the later passes, ";
            self.dwelling.must(name, must_dwelling())
        };
        let limits = || self.limits.must("of option 4, ", must_limits());
        let following = || self.following.must("of option 8, ", must_following());
        let ends = ENDS.map(str::to_owned).to_vec();
        match decks {
            Decks::Any => {
                let parts = dwelling().chain(limits()).chain(following());
                self.all.must("", must()).chain(parts).collect()
            }
            Decks::Dwelling => self.all.must("", ends).chain(dwelling()).collect(),
            Decks::Limits => limits().collect(),
            Decks::Following => following().collect(),
        }
    }
}

/// Names the seed whose deck is under work where that panics.
struct UnderWork(u64);

impl Drop for UnderWork {
    fn drop(&mut self) {
        if std::thread::panicking() {
            println!("failed: seed {}: a panic", self.0);
        }
    }
}

/// Calls the library on the decks of one seed after the other, prints what they met, and whether all is well: there is no
/// difference, all that must be met is, and nothing that cannot occur. The last line is 'N passed, M failed'.
pub fn compare(library: Clausify, decks: Decks, seed: u64, until: &Until) -> bool {
    println!("from seed {seed} on:");
    let begun = Instant::now();
    let mut call = Call::default();
    let mut figures = Figures::default();
    while !figures.is_different && !until.has_come(figures.all.done, begun) {
        let seed = seed.wrapping_add(figures.all.done);
        let _under_work = UnderWork(seed);
        let mut case = case(seed, decks);
        let reply = call.make(&mut case.rng, library, &case.deck, &case.sizes);
        let difference = call
            .difference(reply, &case.deck, &case.expected)
            .or_else(|| diagnosed::difference(reply, &case.deck));
        if let Some(difference) = difference {
            figures.is_different = true;
            tell(&case, decks, &difference);
        }
        figures.note(&case);
    }
    let (done, seconds) = (figures.all.done, begun.elapsed().as_secs_f64());
    println!("{done} decks from seed {seed} on, in {seconds:.1} s");
    figures.print(decks);
    sum(&figures, decks)
}

fn tell(case: &Case, decks: Decks, difference: &str) {
    let Case { seed, kind, .. } = case;
    let option = match decks {
        Decks::Any => "",
        Decks::Dwelling => "--dwell ",
        Decks::Limits => "--limits ",
        Decks::Following => "--follow ",
    };
    println!("failed: seed {seed} ({kind}): {difference}");
    println!("once more: tests/entry/run {option}{seed} 1");
    println!("bytes lent: {:?}", case.sizes.0);
    println!("the deck:\n{}", lines(&case.deck));
}

/// Prints what is missing and the last line, and tells whether nothing failed.
fn sum(figures: &Figures, decks: Decks) -> bool {
    let is_different = figures.is_different;
    let must = figures.must(decks);
    let missing: Vec<&String> = must
        .iter()
        .filter_map(|(what, times)| (*times == 0).then_some(what))
        .collect();
    let occurred = never_met(&figures.all.met);
    let passed = must.len() - missing.len() + NEVER.len() - occurred + usize::from(!is_different);
    let mut failed = occurred + usize::from(is_different);
    // A comparison that ended early need not meet everything.
    if !is_different {
        for what in &missing {
            println!("failed: {what}: 0");
        }
        failed += missing.len();
    }
    println!("{passed} passed, {failed} failed");
    failed == 0
}

/// Deferrals that no deck has; see [`DEFERRAL_KINDS`].
const NEVER: [&str; 3] = ["deferral 6", "deferral 7", "deferral 8"];

/// How many of them there were all the same.
fn never_met(met: &Met) -> usize {
    let times = NEVER.map(|what| (what, met.times(what)));
    for (what, times) in times {
        let failed = if times > 0 { "failed: " } else { "" };
        println!("{failed}{what}, which cannot occur: {times}");
    }
    times.iter().filter(|(_, times)| *times > 0).count()
}
