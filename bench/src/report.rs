//! The results as a page of Markdown.

mod sessions;
mod states;

use std::fmt::Write;

use crate::count::Counter;
use crate::decks::REALISTIC;
use crate::figures::{
    figure, millions, number, percent, range, ratio, runs, table_head, table_row,
};
use crate::ours::{SCRATCH_BYTES, table_bytes};
use crate::plot::{Curve, Plot};
use crate::results::{Build, Builds, Measured, Range, Row};
use crate::store::Run;
use crate::ways::Way;

/// The ways of Gorvask.
const OURS: &str = "\
    - **Gorvask**: from the deck's bytes to filled tables, one call through the wrapper in `host/`, whose tables are large enough \
    already.\n\
    - **First call**: the same by a new clausifier: scratch and tables are made, and where they are too small made larger and \
    the deck clausified again.\n";
/// The most that other work may take in a run whose figures are written down.
const MOST_OTHERS: f64 = 0.02;
/// How ratios are shown.
const RATIOS: &str = "; ratios are Gorvask's time by the Rust's in the same round, their median and in brackets the middle half, \
    and beside it the least and the greatest of the runs' medians: below 1 Gorvask is faster";

pub struct Report {
    date: String,
    machine: String,
    tools: String,
    rounds: usize,
    /// Runs of each build.
    runs: [usize; 2],
    /// The most that other work took in a run.
    others: f64,
    counter: Option<Counter>,
    /// Whether Gorvask was measured.
    ours: bool,
    kinds: Vec<Builds>,
    /// Realistic decks of rising size.
    series: Vec<Builds>,
    /// Decks with their states.
    states: Vec<Builds>,
    /// Texts that are read.
    reading: Vec<Builds>,
    /// Decks as sessions.
    sessions: Vec<Builds>,
}

impl Report {
    /// Of each kind of deck the builds in which the Rust takes less time.
    pub fn of(date: &str, machine: &str, tools: &str, runs: Vec<Run>) -> Self {
        let count = |build: Build| runs.iter().filter(|run| run.build == build).count();
        let (counts, rounds) = (
            Build::ALL.map(count),
            runs.first().map_or(0, |run| run.rounds),
        );
        let others = runs.iter().map(|run| run.others).fold(0.0, f64::max);
        let counter = runs.iter().find_map(|run| run.counter);
        let mut decks = runs
            .iter()
            .flat_map(|run| &run.rows)
            .flat_map(|row| &row.decks);
        let ours = decks.any(|deck| deck.has(Way::Gorvask));
        let mut parts = [const { Vec::new() }; 5];
        for run in runs {
            let of_run = [run.rows, run.series, run.states, run.reading, run.sessions];
            for (part, rows) in parts.iter_mut().zip(of_run) {
                part.extend(rows);
            }
        }
        let [kinds, series, states, reading, sessions] = parts.map(Builds::of);
        Self {
            date: date.to_owned(),
            machine: machine.to_owned(),
            tools: tools.to_owned(),
            rounds,
            runs: counts,
            others,
            counter,
            ours,
            kinds,
            series,
            states,
            reading,
            sessions,
        }
    }

    /// Whether the machine had little other work.
    ///
    /// # Errors
    /// Words that say how much it had.
    pub fn quiet(&self) -> Result<(), String> {
        if self.others <= MOST_OTHERS {
            return Ok(());
        }
        let [others, most] = [self.others, MOST_OTHERS].map(|share| 100.0 * share);
        Err(format!(
            "other work took {others:.1} % of the processors' time in a run, and {most:.0} % is the most: nothing is written. \
             Measure again with nothing else running"
        ))
    }

    /// Whether the runs are of more than the sessions.
    ///
    /// # Errors
    /// Words that say that they are not.
    pub fn whole(&self) -> Result<(), String> {
        if self.kinds.is_empty() {
            return Err("these runs have the sessions alone: their section is printed, and no page is written".into());
        }
        Ok(())
    }

    /// The whole page, or of runs that have nothing else the sessions alone.
    pub fn page(&self) -> String {
        let mut page = String::new();
        let written = if self.kinds.is_empty() {
            self.alone(&mut page)
        } else {
            self.write(&mut page)
        };
        written.expect("a text takes all");
        page
    }

    fn alone(&self, page: &mut String) -> std::fmt::Result {
        self.sessions(page)?;
        let [plain, lto] = self.runs;
        writeln!(
            page,
            "\nMeasured on {}: {}; {plain} runs of the plain build and {lto} of the other, with {} rounds. Other work took at \
             most {:.1} % of the processors' time in a run. Tools: {}.",
            self.date,
            self.machine,
            self.rounds,
            100.0 * self.others,
            self.tools
        )
    }

    fn write(&self, page: &mut String) -> std::fmt::Result {
        writeln!(page, "# Performance\n")?;
        writeln!(
            page,
            "Measured on {}: {}. `bench/run` writes this page and its picture; the figures are of that machine.\n",
            self.date, self.machine
        )?;
        self.method(page)?;
        writeln!(page, "\n## Times\n")?;
        self.times(page)?;
        if self.ours {
            writeln!(page, "\n## Gorvask by Rust\n")?;
            self.ratios(page)?;
        }
        for kind in self.kinds.iter().filter(|kind| kind.name() == REALISTIC) {
            writeln!(page, "\n## Each realistic deck\n")?;
            self.each_deck(page, kind.shown(Way::Rust))?;
        }
        if self.ours {
            writeln!(page, "\n## Memory and clearing\n")?;
            self.clearing(page)?;
        }
        writeln!(page, "\n## Instructions\n")?;
        self.instructions(page)?;
        writeln!(page, "\n## How time grows\n")?;
        self.growth(page)?;
        if !self.states.is_empty() {
            writeln!(page, "\n## States tried\n")?;
            self.states(page)?;
        }
        if !self.reading.is_empty() {
            writeln!(page, "\n## Reading\n")?;
            self.reading(page)?;
        }
        if !self.sessions.is_empty() {
            writeln!(page)?;
            self.sessions(page)?;
        }
        Ok(())
    }

    fn method(&self, page: &mut String) -> std::fmt::Result {
        writeln!(
            page,
            "One program times all ways on the same decks:\n\n{}\
             - **Rust**: from the deck's bytes to clauses: the reader of `tests/deck`, conversion, and `clausify_with_stats` of \
             the unmodified sources.\n\
             - **Rust alone**: `clausify_with_stats` on an ontology that is there already.\n",
            if self.ours { OURS } else { "" }
        )?;
        self.builds(page)?;
        if self.ours {
            write!(
                page,
                "Gorvask's clauses and statistics are first compared with the Rust's; of a deck with option 8, which the Rust has \
                 not, with those of its instrumented copy, and nothing stands beside its times. "
            )?;
        }
        let [plain, lto] = self.runs;
        writeln!(
            page,
            "There are {plain} whole runs of the plain build and {lto} of the other, in turn, each a process of its own with {} \
             rounds; a round has a sample of every way, in turning order, and a sample is the mean of as many calls as take 4 ms, \
             or one. The time is the thread's processor time; what a call hands back is freed outside it. Times are medians of \
             the samples of all runs, and in brackets stand the least and the greatest of the runs' medians{}. Other work took at \
             most {:.1} % of the processors' time in a run.\n\n\
             The sources use the crate hashbrown, which was not at hand; `tests/hashbrown` stands in for it, with a quick hash by \
             folded products in place of that crate's.",
            self.rounds,
            if self.ours { RATIOS } else { "" },
            100.0 * self.others
        )
    }

    fn builds(&self, page: &mut String) -> std::fmt::Result {
        writeln!(
            page,
            "The program, and with it the Rust, is built twice by cargo: *plain* is the profile `release` as it comes (opt-level \
             3, 16 codegen units, `lto = false`), *LTO* has opt-level 3, one codegen unit and `lto = \"fat\"`. Of Rust, and \
             of Rust alone, the build is shown in which it takes less time; reading and conversion are those of Rust's build.{} \
             Neither side is told which processor it will run on. Tools: {}.\n",
            if self.ours {
                " Gorvask is a static library, all its crates as one LLVM module, compiled at -O3; it is the same in both builds, and \
                 its times are those beside Rust's."
            } else {
                ""
            },
            self.tools
        )
    }

    fn times(&self, page: &mut String) -> std::fmt::Result {
        let mut head = vec!["deck", "bytes", "axioms", "clauses", "visits"];
        if self.ours {
            head.extend(["Gorvask, ms", "first call, ms"]);
        }
        head.extend([
            "Rust, ms",
            "Rust alone, ms",
            "reading and conversion, ms",
            "their share of Rust",
            "Rust's build",
            "Rust alone's build",
        ]);
        table_head(page, &head)?;
        for kind in &self.kinds {
            table_row(page, &self.time_cells(kind))?;
        }
        Ok(())
    }

    fn ratios(&self, page: &mut String) -> std::fmt::Result {
        let head = [
            "deck",
            "Gorvask by Rust",
            "in the runs",
            "Gorvask by Rust alone",
            "in the runs",
        ];
        table_head(page, &head)?;
        for kind in self.kinds.iter().filter(|kind| kind.has(Way::Rust)) {
            let mut cells = vec![kind.name().to_owned()];
            for by in [Way::Rust, Way::RustAlone] {
                let row = kind.shown(by);
                cells.push(ratio(row.ratio(Way::Gorvask, by)));
                cells.push(runs(row.ratio_in_runs(Way::Gorvask, by)));
            }
            table_row(page, &cells)?;
        }
        Ok(())
    }

    fn clearing(&self, page: &mut String) -> std::fmt::Result {
        writeln!(
            page,
            "Scratch has {} bytes. The tables are those at which the wrapper's growth ends for the deck; where decks differ, the \
             largest. Clearing is the time of one plain `memset` over as many bytes, and its share that of Gorvask's time: what \
             a call cannot go below while it leaves scratch and the tables' rest as zeros. However small the deck, all of scratch \
             is cleared; so the last column shows what is left for the deck itself: Gorvask's time less both clearings, by their \
             medians, and not below 0.\n",
            number(SCRATCH_BYTES)
        )?;
        table_head(
            page,
            &[
                "deck",
                "lent clauses",
                "lent atoms",
                "lent deferrals",
                "bytes of the tables",
                "clearing tables, ms",
                "clearing scratch, ms",
                "share",
                "Gorvask without clearing, ms",
            ],
        )?;
        for kind in &self.kinds {
            table_row(page, &clearing_cells(kind.shown(Way::Gorvask)))?;
        }
        Ok(())
    }

    fn instructions(&self, page: &mut String) -> std::fmt::Result {
        let Some(counter) = self.counter else {
            return writeln!(
                page,
                "Not counted: neither valgrind nor perf counts on this machine, or counting was not asked for."
            );
        };
        writeln!(
            page,
            "Millions of instructions of one call, by {}, on the first deck of each kind, in the builds above.\n",
            counter.name()
        )?;
        let ways = Way::shown(self.ours);
        let mut head = vec!["deck"];
        head.extend(ways.iter().map(|way| way.name()));
        table_head(page, &head)?;
        for kind in &self.kinds {
            let mut cells = vec![kind.name().to_owned()];
            cells.extend(ways.iter().map(|&way| {
                let count = kind.shown(way).count_of(way);
                count.map_or_else(|| "–".to_owned(), millions)
            }));
            table_row(page, &cells)?;
        }
        Ok(())
    }

    fn growth(&self, page: &mut String) -> std::fmt::Result {
        writeln!(
            page,
            "Realistic decks with more and more axioms, names and concepts; three of each size. Time per KB (1,000 bytes) is the \
             median of the three decks{}. Where it stays level from row to row, time is linear in the deck.\n\n\
             ![Time against the size of the deck](performance.svg)\n",
            if self.ours {
                "; Gorvask's is without clearing, as above"
            } else {
                ""
            }
        )?;
        let mut head = vec!["axioms".to_owned(), "bytes".to_owned()];
        let names = Way::shown(self.ours).into_iter().map(Way::name);
        head.extend(names.map(|name| format!("{name}, ms")));
        if self.ours {
            head.push("Gorvask without clearing, µs per KB".to_owned());
        }
        head.push("Rust, µs per KB".to_owned());
        table_head(page, &head)?;
        for kind in &self.series {
            table_row(page, &self.growth_cells(kind))?;
        }
        Ok(())
    }

    /// The picture of how time grows.
    pub fn picture(&self) -> String {
        let curve = |way: Way| Curve {
            name: way.name(),
            colour: match way {
                Way::Gorvask => "#c0392b",
                Way::Rust => "#2c5aa0",
                _ => "#2e8b57",
            },
            points: self
                .series
                .iter()
                .map(|kind| {
                    let row = kind.shown(way);
                    let bytes = middle(row.range(|facts| facts.bytes));
                    (bytes / 1_000.0, row.time(way).median)
                })
                .collect(),
        };
        Plot {
            title: "Time of a call against the size of the deck (realistic decks)",
            x: "deck, kilobytes (logarithmic)",
            y: "time of a call, milliseconds (logarithmic)",
            curves: Way::shown(self.ours).into_iter().map(curve).collect(),
        }
        .svg()
    }

    /// The decks of a kind one by one.
    fn each_deck(&self, page: &mut String, row: &Row) -> std::fmt::Result {
        let ways = [Way::Gorvask, Way::Rust];
        let ways = &ways[usize::from(!self.ours)..];
        let mut head = ["bytes", "clauses", "visits"].map(str::to_owned).to_vec();
        head.extend(ways.iter().map(|way| format!("{}, ms", way.name())));
        if self.ours {
            head.push("Gorvask by Rust".to_owned());
        }
        table_head(page, &head)?;
        for deck in &row.decks {
            let facts = &deck.facts;
            let mut cells = [facts.bytes, facts.clauses, facts.visits]
                .map(number)
                .to_vec();
            cells.extend(ways.iter().map(|&way| figure(deck.time(way).median)));
            if self.ours {
                cells.push(ratio(deck.ratio(Way::Gorvask, Way::Rust)));
            }
            table_row(page, &cells)?;
        }
        if self.ours {
            let median = |deck: &Measured| deck.ratio(Way::Gorvask, Way::Rust).median;
            writeln!(
                page,
                "\nOf the {} decks' medians of Gorvask by Rust the median is {}, and the greatest is {}.",
                row.decks.len(),
                figure(row.median(median)),
                figure(row.greatest(median))
            )?;
        }
        Ok(())
    }

    /// A kind's cells under "Times".
    fn time_cells(&self, kind: &Builds) -> Vec<String> {
        let row = kind.shown(Way::Rust);
        let mut cells = vec![
            row.name.clone(),
            range(row.range(|facts| facts.bytes)),
            range(row.range(|facts| facts.axioms)),
            range(row.range(|facts| facts.clauses)),
            range(row.range(|facts| facts.visits)),
        ];
        let ours = [Way::Gorvask, Way::First].into_iter();
        let ways = ours
            .filter(|_| self.ours)
            .chain([Way::Rust, Way::RustAlone, Way::RustReading]);
        cells.extend(ways.map(|way| {
            if !kind.has(way) {
                return "–".to_owned();
            }
            let row = kind.shown(way);
            let in_runs = runs(row.time_in_runs(way));
            format!("{} ({in_runs})", figure(row.time(way).median))
        }));
        if !kind.has(Way::Rust) {
            cells.extend(["–"; 3].map(str::to_owned));
            return cells;
        }
        cells.push(percent(row.ratio(Way::RustReading, Way::Rust).median));
        let builds = [Way::Rust, Way::RustAlone].map(|way| kind.shown(way).build.name());
        cells.extend(builds.map(str::to_owned));
        cells
    }

    /// A size's cells under "How time grows".
    fn growth_cells(&self, kind: &Builds) -> Vec<String> {
        let row = kind.shown(Way::Rust);
        let mut cells = vec![
            range(row.range(|facts| facts.axioms)),
            range(row.range(|facts| facts.bytes)),
        ];
        let ways = Way::shown(self.ours).into_iter();
        cells.extend(ways.map(|way| figure(kind.shown(way).time(way).median)));
        if self.ours {
            let median = row.median(|deck| deck.by_kilobyte(deck.without_clearing()));
            cells.push(figure(median));
        }
        let median = row.median(|deck| deck.by_kilobyte(deck.time(Way::Rust).median));
        cells.push(figure(median));
        cells
    }
}

/// A kind's cells under "Memory and clearing".
fn clearing_cells(row: &Row) -> [String; 9] {
    let [clauses, atoms, deferrals] = row.lent();
    let share = row.ratio(Way::ClearTables, Way::Gorvask).median
        + row.ratio(Way::ClearScratch, Way::Gorvask).median;
    [
        row.name.clone(),
        number(clauses),
        number(atoms),
        number(deferrals),
        number(table_bytes(row.lent())),
        figure(row.time(Way::ClearTables).median),
        figure(row.time(Way::ClearScratch).median),
        percent(share),
        figure(row.without_clearing()),
    ]
}

#[expect(clippy::cast_precision_loss, reason = "a place in a picture")]
fn middle((least, greatest): Range) -> f64 {
    (least + greatest) as f64 / 2.0
}

#[cfg(test)]
mod tests;
