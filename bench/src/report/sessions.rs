//! What is told of sessions.

use std::fmt::Write;

use super::Report;
use crate::figures::{figure, millions, range, ratio, runs, table_head, table_row};
use crate::results::{Builds, Measured, Row};
use crate::sessions::{Call, FILLED, JUNCTION};
use crate::ways::Way;

impl Report {
    /// The section with its heading.
    pub(super) fn sessions(&self, page: &mut String) -> std::fmt::Result {
        writeln!(page, "## A session\n")?;
        how_sessions_are_timed(page)?;
        table_head(
            page,
            &[
                "deck",
                "bytes",
                "call",
                "Gorvask, ms",
                "at most, ms",
                "Gorvask by that",
                "in the runs",
                "slowest deck",
                "Rust, ms",
                "Gorvask by Rust",
            ],
        )?;
        for kind in &self.sessions {
            table_row(page, &run_cells(kind.plain()))?;
            for call in Call::ALL {
                table_row(page, &call_cells(kind, call))?;
            }
        }
        for kind in &self.sessions {
            self.session_counts(page, kind.plain())?;
        }
        Ok(())
    }

    fn session_counts(&self, page: &mut String, row: &Row) -> std::fmt::Result {
        let counts: Option<Vec<String>> = Way::SESSION
            .into_iter()
            .map(|way| Some(format!("{} {}", way.name(), millions(row.count_of(way)?))))
            .collect();
        let (Some(counter), Some(counts)) = (self.counter, counts) else {
            return Ok(());
        };
        writeln!(
            page,
            "\nBy {}, millions of instructions of a call on the first deck of *{}*: {}.",
            counter.name(),
            row.name,
            counts.join(", ")
        )
    }
}

fn how_sessions_are_timed(page: &mut String) -> std::fmt::Result {
    writeln!(
        page,
        "`gorvask_session_start`, `_add`, `_strike`, `_options` and `_take`, called as C would, and beside them \
         `gorvask_clausify_with_stats` of the same deck and tables. Each call has a fresh copy of the deck's session, which is \
         made while the clock stands still, and is checked to be done. The deck's first axiom is what is struck, so that most is \
         to be moved, and what is added, once more; the options become others.\n\n\
         A session may be any bytes, so no call can do without reading the deck. *At most* is what a call may take: add, strike \
         and options a start of the same deck, which reads it once, moves its bytes and clears scratch, as they must too; take a \
         start and then a clausify, timed as one. Ratios are by the time of that in the same round, their median and in brackets \
         the middle half, beside it the least and the greatest of the runs' medians, and the greatest of the decks' medians: \
         below 1 the call takes less.\n\n\
         *Rust* is the same call in plain Rust, from table to table, with the reader of `tests/deck`: it looks at the zeros \
         behind the text, reads the deck once and has no scratch to clear; its take is followed by conversion and \
         `clausify_with_stats` of the unmodified sources. What Gorvask's calls leave is first compared with what these leave, \
         and the tables of a taking with those of a run. Rust, and Gorvask by Rust, are of the build in which Rust takes less \
         time, all else of the plain build. The decks are the small one of [JUNCTION.md](JUNCTION.md) (*{JUNCTION}*), the \
         realistic ones, and the largest of these with disjointnesses of eight classes behind it, as many as leave room for a \
         line (*{FILLED}*).\n"
    )
}

/// What a call may take at most.
fn most(call: Call) -> Option<Way> {
    match call {
        Call::Start => None,
        Call::Add | Call::Strike | Call::Options => Some(Way::Session(Call::Start)),
        Call::Take => Some(Way::StartAndClausify),
    }
}

fn none() -> String {
    "–".to_owned()
}

/// The median time, and in brackets the least and the greatest of the runs' medians.
fn time(row: &Row, way: Way) -> String {
    let in_runs = runs(row.time_in_runs(way));
    format!("{} ({in_runs})", figure(row.time(way).median))
}

/// The cells of a run of the deck.
fn run_cells(row: &Row) -> Vec<String> {
    let bytes = range(row.range(|facts| facts.bytes));
    let mut cells = vec![row.name.clone(), bytes, Way::Clausify.name().to_owned()];
    cells.push(time(row, Way::Clausify));
    cells.resize(10, none());
    cells
}

/// The cells of a call.
fn call_cells(kind: &Builds, call: Call) -> Vec<String> {
    let row = kind.plain();
    let (ours, rust) = (Way::Session(call), Way::InRust(call));
    let bytes = range(row.range(|facts| facts.bytes));
    let mut cells = vec![row.name.clone(), bytes, ours.name().to_owned()];
    cells.push(time(row, ours));
    match most(call) {
        None => cells.resize(8, none()),
        Some(most) => {
            let of_deck = |deck: &Measured| deck.ratio(ours, most).median;
            cells.extend([
                time(row, most),
                ratio(row.ratio(ours, most)),
                runs(row.ratio_in_runs(ours, most)),
                figure(row.greatest(of_deck)),
            ]);
        }
    }
    let quickest = kind.quickest(rust);
    cells.push(time(quickest, rust));
    cells.push(ratio(quickest.ratio(ours, rust)));
    cells
}
