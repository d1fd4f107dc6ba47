//! Gorvask beside the Rust: the same decks, the same program. `bench/run` builds and runs it.

mod clock;
mod count;
mod decks;
mod draft;
mod extreme;
mod figures;
mod fitted;
mod fresh;
mod in_rust;
mod layout;
mod measure;
mod ours;
mod plot;
mod quiet;
mod realistic;
mod report;
mod results;
mod sessions;
mod store;
mod trials;
mod tried;
mod ways;

use std::error::Error;
use std::fs;
use std::path::{Path, PathBuf};
use std::process::ExitCode;
use std::time::Duration;

use count::Counter;
use decks::{REALISTIC, kinds, series};
use quiet::Ticks;
use report::Report;
use results::{Build, Row};
use sessions::Played;
use store::Run;
use trials::Texts;
use tried::Tried;
use ways::{Prepared, Way};

const USAGE: &str = "\
bench measure [--to FILE] [--build plain|LTO] [--rounds N] [--no-counts] [--sessions]
                             a whole run, or one of the sessions alone, written to the file or printed; says how this program
                             was built
bench page [--to FOLDER] [--date DATE] [--tools WORDS] FILE..
                             of such runs PERFORMANCE.md and performance.svg in the folder, or the page printed; nothing is
                             written where other work took over 2 % of the processors' time in a run
bench decks FOLDER           writes the decks and states
bench once WAY CALLS DECK [STATE]
                             so many calls on one deck or a session of it, or on a deck and a state, for the counting of
                             instructions
";

type Outcome<T = ()> = Result<T, Box<dyn Error>>;

fn main() -> ExitCode {
    let arguments: Vec<String> = std::env::args().skip(1).collect();
    let words: Vec<&str> = arguments.iter().map(String::as_str).collect();
    let outcome = match *words.as_slice() {
        ["measure", ref rest @ ..] => measure(rest),
        ["page", ref rest @ ..] => page(rest),
        ["decks", folder] => write_decks(Path::new(folder)),
        ["once", way, calls, deck] => once(way, calls, deck),
        ["once", way, calls, deck, state] => once_with_state(way, calls, [deck, state]),
        ["idle"] => Ok(()),
        _ => Err(USAGE.into()),
    };
    if let Err(error) = outcome {
        eprintln!("{error}");
        return ExitCode::FAILURE;
    }
    ExitCode::SUCCESS
}

struct Settings {
    to: Option<PathBuf>,
    build: Build,
    rounds: usize,
    counts: bool,
    /// Whether the sessions alone are measured.
    sessions: bool,
}

fn settings(words: &[&str]) -> Outcome<Settings> {
    let mut settings = Settings {
        to: None,
        build: Build::Plain,
        rounds: 15,
        counts: true,
        sessions: false,
    };
    let mut words = words.iter().copied();
    while let Some(word) = words.next() {
        let mut value = || words.next().ok_or(USAGE);
        match word {
            "--to" => settings.to = Some(PathBuf::from(value()?)),
            "--build" => settings.build = Build::named(value()?).ok_or(USAGE)?,
            "--rounds" => settings.rounds = value()?.parse()?,
            "--no-counts" => settings.counts = false,
            "--sessions" => settings.sessions = true,
            _ => return Err(USAGE.into()),
        }
    }
    Ok(settings)
}

fn measure(words: &[&str]) -> Outcome {
    let settings = settings(words)?;
    let before = Ticks::now();
    let counter = settings.counts.then(Counter::find).flatten();
    let mut run = Run {
        build: settings.build,
        rounds: settings.rounds,
        others: 0.0,
        counter,
        rows: Vec::new(),
        series: Vec::new(),
        states: Vec::new(),
        reading: Vec::new(),
        sessions: Vec::new(),
    };
    if !settings.sessions {
        run.rows = measure_kinds(&settings, counter)?;
        run.series = measure_series(&settings);
        run.states = measure_states(&settings, counter)?;
        run.reading = measure_reading(&settings, counter)?;
    }
    run.sessions = measure_sessions(&settings, counter)?;
    run.others = Ticks::now().others_since(&before);
    match settings.to {
        Some(file) => fs::write(file, run.text())?,
        None => print!("{}", run.text()),
    }
    Ok(())
}

/// Each kind of deck.
fn measure_kinds(settings: &Settings, counter: Option<Counter>) -> Outcome<Vec<Row>> {
    let mut rows = Vec::new();
    for kind in kinds() {
        eprintln!("{}", kind.name);
        let mut row = Row::of(kind.name, settings.build, &kind.decks, settings.rounds);
        if let Some(counter) = counter {
            let ways = Way::shown(ours::MEASURED).into_iter();
            let ways: Vec<Way> = ways.filter(|&way| row.decks[0].has(way)).collect();
            row.count(counter, ways, &[&kind.decks[0]])?;
        }
        rows.push(row);
    }
    Ok(rows)
}

/// Decks of rising size.
fn measure_series(settings: &Settings) -> Vec<Row> {
    let mut rows = Vec::new();
    for (axioms, decks) in series() {
        eprintln!("{axioms} axioms");
        let name = axioms.to_string();
        rows.push(Row::of(&name, settings.build, &decks, settings.rounds));
    }
    rows
}

/// Both tests of each state, and where the second evaluator ends in short time their instructions; nothing without Gorvask.
fn measure_states(settings: &Settings, counter: Option<Counter>) -> Outcome<Vec<Row>> {
    let mut rows = Vec::new();
    if !ours::MEASURED {
        return Ok(rows);
    }
    for kind in trials::tried() {
        eprintln!("{}", kind.name);
        let mut row = Row::of_states(&kind, settings.build, settings.rounds);
        if let Some(counter) = counter.filter(|_| kind.second) {
            let Texts { deck, state } = &kind.texts[0];
            row.count(counter, Way::OF_STATES, &[deck, state])?;
        }
        rows.push(row);
    }
    Ok(rows)
}

/// The reading of each text, likewise.
fn measure_reading(settings: &Settings, counter: Option<Counter>) -> Outcome<Vec<Row>> {
    let mut rows = Vec::new();
    if !ours::MEASURED {
        return Ok(rows);
    }
    for kind in trials::read() {
        eprintln!("{}", kind.name);
        let mut row = Row::of_reading(&kind, settings.build, settings.rounds);
        if let Some(counter) = counter {
            let Texts { deck, state } = &kind.texts[0];
            row.count(counter, Way::READING, &[deck, state])?;
        }
        rows.push(row);
    }
    Ok(rows)
}

/// The calls of a session of each deck, and of Gorvask's in the plain build, which is shown, their instructions.
fn measure_sessions(settings: &Settings, counter: Option<Counter>) -> Outcome<Vec<Row>> {
    let mut rows = Vec::new();
    if !ours::MEASURED {
        return Ok(rows);
    }
    for kind in sessions::kinds() {
        eprintln!("a session of {}", kind.name);
        let mut row = Row::of_sessions(&kind, settings.build, settings.rounds);
        if let Some(counter) = counter.filter(|_| settings.build == Build::Plain) {
            row.count(counter, Way::SESSION, &[&kind.decks[0]])?;
        }
        rows.push(row);
    }
    Ok(rows)
}

/// The page of stored runs.
fn page(words: &[&str]) -> Outcome {
    let (mut to, mut date, mut tools) = (None, "a day that was not told", "");
    let mut runs = Vec::new();
    let mut words = words.iter().copied();
    while let Some(word) = words.next() {
        let mut value = || words.next().ok_or(USAGE);
        match word {
            "--to" => to = Some(PathBuf::from(value()?)),
            "--date" => date = value()?,
            "--tools" => tools = value()?,
            file => {
                let run = Run::of(&fs::read_to_string(file)?);
                runs.push(run.ok_or_else(|| format!("{file} is no run"))?);
            }
        }
    }
    let report = Report::of(date, &machine(), tools, runs);
    match to {
        Some(folder) => {
            report.quiet()?;
            report.whole()?;
            fs::create_dir_all(&folder)?;
            fs::write(folder.join("PERFORMANCE.md"), report.page())?;
            fs::write(folder.join("performance.svg"), report.picture())?;
        }
        None => print!("{}", report.page()),
    }
    Ok(())
}

/// The processor's name and how many cores there are.
fn machine() -> String {
    let info = fs::read_to_string("/proc/cpuinfo").unwrap_or_default();
    let model = info
        .lines()
        .find_map(|line| line.strip_prefix("model name")?.split_once(": "))
        .map_or("a processor of unknown kind", |(_, model)| model);
    let cores = std::thread::available_parallelism().map_or(1, usize::from);
    format!("{model}, {cores} cores, {}", std::env::consts::OS)
}

fn write_decks(folder: &Path) -> Outcome {
    fs::create_dir_all(folder)?;
    let sessions = sessions::kinds().into_iter();
    let others = sessions.filter(|kind| kind.name != REALISTIC);
    for kind in kinds().into_iter().chain(others) {
        let name = file_name(kind.name);
        for (number, deck) in kind.decks.iter().enumerate() {
            fs::write(folder.join(format!("{name}-{number}.deck")), deck)?;
        }
    }
    for (axioms, decks) in series() {
        for (number, deck) in decks.iter().enumerate() {
            fs::write(folder.join(format!("series-{axioms}-{number}.deck")), deck)?;
        }
    }
    for kind in trials::tried().into_iter().chain(trials::read()) {
        let name = file_name(kind.name);
        for (number, Texts { deck, state }) in kind.texts.iter().enumerate() {
            let file = folder.join(format!("tried-{name}-{number}"));
            fs::write(file.with_extension("deck"), deck)?;
            fs::write(file.with_extension("state"), state)?;
        }
    }
    Ok(())
}

/// A kind's name without spaces, commas and the like.
fn file_name(kind: &str) -> String {
    kind.replace(", ", "-")
        .replace([' ', ','], "-")
        .replace(['`', '/'], "")
}

fn once(way: &str, calls: &str, deck: &str) -> Outcome {
    let deck = fs::read(deck)?;
    let calls = calls.parse()?;
    let way = Way::named(way).ok_or(USAGE)?;
    if Way::timed().contains(&way) {
        Prepared::new(&deck).time(way, calls, Duration::ZERO);
    } else if ours::MEASURED && Way::of_sessions().any(|of| of == way) {
        Played::new(&deck).time(way, calls, Duration::ZERO);
    } else {
        return Err(USAGE.into());
    }
    Ok(())
}

fn once_with_state(way: &str, calls: &str, [deck, state]: [&str; 2]) -> Outcome {
    let texts = Texts {
        deck: fs::read(deck)?,
        state: fs::read(state)?,
    };
    let is_timed = |way: &Way| Way::OF_STATES.contains(way) || Way::READING.contains(way);
    let way = Way::named(way).filter(is_timed).ok_or(USAGE)?;
    Tried::new(&texts).time(way, calls.parse()?, Duration::ZERO);
    Ok(())
}
