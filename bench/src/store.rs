//! A whole run as a text: a line for the run, then lines for each kind of deck, its decks and their times. Fields are parted
//! by tabs.

use std::fmt::Write;

use crate::count::Counter;
use crate::measure::Times;
use crate::results::{Build, Facts, Measured, Row};
use crate::ways::Way;

/// The first words of the lines that begin a row.
const PARTS: [&str; 5] = ["row", "series", "state", "reading", "session"];

/// One whole run of one build.
pub struct Run {
    pub build: Build,
    pub rounds: usize,
    /// The share of all processor time that other work took.
    pub others: f64,
    pub counter: Option<Counter>,
    pub rows: Vec<Row>,
    /// Realistic decks of rising size.
    pub series: Vec<Row>,
    /// Decks with their states.
    pub states: Vec<Row>,
    /// Texts that are read.
    pub reading: Vec<Row>,
    /// Decks as sessions.
    pub sessions: Vec<Row>,
}

impl Run {
    pub fn text(&self) -> String {
        let mut text = String::new();
        self.write(&mut text).expect("a text takes all");
        text
    }

    fn write(&self, text: &mut String) -> std::fmt::Result {
        let counter = self.counter.map_or("none", Counter::name);
        let (build, rounds, others) = (self.build.name(), self.rounds, self.others);
        writeln!(text, "run\t{build}\t{rounds}\t{others}\t{counter}")?;
        let parts = [
            &self.rows,
            &self.series,
            &self.states,
            &self.reading,
            &self.sessions,
        ];
        for (part, rows) in PARTS.into_iter().zip(parts) {
            for row in rows {
                writeln!(text, "{part}\t{}", row.name)?;
                write_row(text, row)?;
            }
        }
        Ok(())
    }

    /// The rows of a part.
    fn part(&mut self, part: &str) -> &mut Vec<Row> {
        match part {
            "row" => &mut self.rows,
            "series" => &mut self.series,
            "state" => &mut self.states,
            "reading" => &mut self.reading,
            _ => &mut self.sessions,
        }
    }

    /// The run of a text, none where a line is not as it should be.
    pub fn of(text: &str) -> Option<Self> {
        let mut lines = text.lines();
        let ["run", build, rounds, others, counter] = *fields(lines.next()?) else {
            return None;
        };
        let mut run = Self {
            build: Build::named(build)?,
            rounds: rounds.parse().ok()?,
            others: others.parse().ok()?,
            counter: Counter::named(counter),
            rows: Vec::new(),
            series: Vec::new(),
            states: Vec::new(),
            reading: Vec::new(),
            sessions: Vec::new(),
        };
        let mut part = PARTS[0];
        for line in lines {
            let fields = fields(line);
            part = PARTS
                .into_iter()
                .find(|of| *of == fields[0])
                .unwrap_or(part);
            let build = run.build;
            read_line(run.part(part), build, &fields)?;
        }
        Some(run)
    }
}

fn fields(line: &str) -> Vec<&str> {
    line.split('\t').collect()
}

fn write_row(text: &mut String, row: &Row) -> std::fmt::Result {
    for (way, count) in &row.counts {
        writeln!(text, "count\t{}\t{count}", way.name())?;
    }
    for deck in &row.decks {
        let facts = &deck.facts;
        let [clauses, atoms, deferrals] = facts.lent;
        let (bytes, state, axioms) = (facts.bytes, facts.state, facts.axioms);
        let (found, visits) = (facts.clauses, facts.visits);
        writeln!(
            text,
            "deck\t{bytes}\t{state}\t{axioms}\t{found}\t{visits}\t{clauses}\t{atoms}\t{deferrals}"
        )?;
        for (way, times) in deck.runs.iter().flat_map(|times| times.ways()) {
            let times: Vec<String> = times.iter().map(f64::to_string).collect();
            writeln!(text, "time\t{}\t{}", way.name(), times.join("\t"))?;
        }
    }
    Ok(())
}

fn read_line(rows: &mut Vec<Row>, build: Build, fields: &[&str]) -> Option<()> {
    match *fields {
        [part, name] if PARTS.contains(&part) => rows.push(Row {
            name: name.to_owned(),
            build,
            decks: Vec::new(),
            counts: Vec::new(),
        }),
        ["count", way, count] => {
            let count = (Way::named(way)?, count.parse().ok()?);
            rows.last_mut()?.counts.push(count);
        }
        ["deck", ref facts @ ..] => rows.last_mut()?.decks.push(Measured {
            facts: facts_of(facts)?,
            runs: vec![Times::default()],
        }),
        ["time", way, ref times @ ..] => {
            let times: Option<Vec<f64>> = times.iter().map(|time| time.parse().ok()).collect();
            let deck = rows.last_mut()?.decks.last_mut()?;
            deck.runs.last_mut()?.add(Way::named(way)?, times?);
        }
        _ => return None,
    }
    Some(())
}

fn facts_of(fields: &[&str]) -> Option<Facts> {
    let numbers: Option<Vec<usize>> = fields.iter().map(|field| field.parse().ok()).collect();
    let [bytes, state, axioms, clauses, visits, lent @ ..] = &numbers?[..] else {
        return None;
    };
    Some(Facts {
        bytes: *bytes,
        state: *state,
        axioms: *axioms,
        clauses: *clauses,
        visits: *visits,
        lent: lent.try_into().ok()?,
    })
}

#[cfg(test)]
mod tests {
    use super::Run;

    const TEXT: &str = "run\tLTO\t2\t0.015\tperf\n\
        row\twide, own branches\n\
        count\tRust\t1234\n\
        deck\t100\t0\t2\t3\t4\t5\t6\t7\n\
        time\tRust\t0.5\t0.25\n\
        time\tRust alone\t0.1\t0.2\n\
        deck\t200\t0\t2\t3\t4\t5\t6\t7\n\
        series\t16\n\
        deck\t300\t0\t2\t3\t4\t5\t6\t7\n\
        time\tRust\t0.125\t1\n\
        state\trealistic, all holds\n\
        count\taxioms\t77\n\
        deck\t400\t500\t2\t3\t4\t5\t6\t7\n\
        time\tclausify\t0.25\t0.5\n\
        time\tsecond evaluator, axioms\t9\n\
        reading\tlists\n\
        deck\t600\t0\t0\t0\t0\t5\t6\t7\n\
        time\trefused at the last line\t0.75\n\
        session\trealistic\n\
        count\tadd\t1900000\n\
        deck\t700\t0\t2\t3\t4\t5\t6\t7\n\
        time\tstart and clausify\t0.5\n\
        time\tRust, strike\t0.125\t0.25\n";

    #[test]
    fn a_text_is_read_back() {
        let run = Run::of(TEXT).expect("a run");
        let rows = [&run.rows, &run.series, &run.states, &run.reading];
        assert_eq!(rows.map(Vec::len), [1; 4]);
        assert_eq!(run.sessions[0].counts.len(), 1);
        assert_eq!(run.rows[0].decks.len(), 2);
        assert_eq!(run.series[0].decks[0].facts.lent, [5, 6, 7]);
        assert_eq!(run.states[0].decks[0].facts.state, 500);
        assert_eq!(run.text(), TEXT);
    }

    #[test]
    fn another_text_is_no_run() {
        for (from, to) in [
            ("LTO", "none"),
            ("100", ""),
            ("Rust alone", "C"),
            ("0.25", "x"),
            ("row", "line"),
        ] {
            assert!(Run::of(&TEXT.replace(from, to)).is_none(), "{to}");
        }
    }
}
