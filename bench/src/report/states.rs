//! What is told of states that are tried, and of texts that are read.

use std::fmt::Write;

use super::Report;
use crate::figures::{figure, millions, number, range, runs, table_head, table_row};
use crate::results::{Builds, Measured, Row};
use crate::trials::{FOUR, HELD, WHOLE};
use crate::ways::Way;

/// The tests of a state, each with the second evaluator's.
const TESTS: [(Way, Way); 2] = [
    (Way::Axioms, Way::SecondAxioms),
    (Way::Clauses, Way::SecondClauses),
];

impl Report {
    pub(super) fn states(&self, page: &mut String) -> std::fmt::Result {
        how_states_are_tried(page)?;
        table_head(
            page,
            &[
                "deck and state",
                "deck, bytes",
                "state, bytes",
                "axioms",
                "clauses",
                "clausify, ms",
                "axioms, ms",
                "axioms beyond clausify, ms",
                "second evaluator, axioms, ms",
                "clauses, ms",
                "clauses beyond clausify, ms",
                "second evaluator, clauses, ms",
            ],
        )?;
        for kind in &self.states {
            table_row(page, &state_cells(kind))?;
        }
        self.state_sums(page)
    }

    /// What the table says of the speed that was asked for.
    fn state_sums(&self, page: &mut String) -> std::fmt::Result {
        for kind in &self.states {
            let row = kind.plain();
            if kind.name() == FOUR {
                let beyond = beyond(row, Way::Clauses).0;
                let clauses = row.range(|facts| facts.clauses).1;
                #[expect(clippy::cast_precision_loss, reason = "a few digits are shown")]
                let each = 1_000.0 * beyond / clauses as f64;
                let (beyond, clauses) = (figure(beyond / 1_000.0), number(clauses));
                writeln!(
                    page,
                    "\n{clauses} clauses of four variables over 64 elements are tested in {beyond} s, {} µs for each.",
                    figure(each)
                )?;
            } else {
                let both = |deck: &Measured| -> f64 {
                    TESTS
                        .map(|(way, _)| deck.beyond(way, Way::Clausify))
                        .iter()
                        .sum()
                };
                writeln!(
                    page,
                    "\nBoth tests of *{}* take together {} ms beyond clausify, and {} ms for the slowest of the {} decks.",
                    kind.name(),
                    figure(row.median(both)),
                    figure(row.greatest(both)),
                    row.decks.len()
                )?;
            }
            self.state_counts(page, row)?;
        }
        Ok(())
    }

    fn state_counts(&self, page: &mut String, row: &Row) -> std::fmt::Result {
        let counts = Way::OF_STATES.map(|way| row.count_of(way));
        let (Some(counter), [Some(clausify), Some(axioms), Some(clauses)]) = (self.counter, counts)
        else {
            return Ok(());
        };
        let beyond = [axioms, clauses].map(|count| millions(count.saturating_sub(clausify)));
        let [axioms, clauses] = beyond;
        writeln!(
            page,
            "By {}, of the first deck: {} million instructions for clausify, {axioms} more for the axioms, {clauses} more for \
             the clauses.",
            counter.name(),
            millions(clausify)
        )
    }

    pub(super) fn reading(&self, page: &mut String) -> std::fmt::Result {
        writeln!(
            page,
            "A text that is refused at its last line is read, and nothing else is done with it; the time is that of the call less \
             that of a call with an empty text, by their medians. The lines of a deck (`gorvask_clausify_with_stats`) are checked. \
             Those of a state (`gorvask_try_clauses`, with a deck of a header alone) are read once, checked, and entered: each \
             pair in both directions. MB are 1,000,000 bytes; in brackets stand the least and the greatest of the runs.\n"
        )?;
        let mut head = vec!["text", "bytes", "ms", "MB/s"];
        if self.counter.is_some() {
            head.push("instructions for each byte");
        }
        table_head(page, &head)?;
        for kind in &self.reading {
            let cells = reading_cells(kind.plain());
            table_row(page, &cells[..head.len()])?;
        }
        Ok(())
    }
}

fn how_states_are_tried(page: &mut String) -> std::fmt::Result {
    writeln!(
        page,
        "`gorvask_try_axioms` and `gorvask_try_clauses`, called as C would, and beside them \
         `gorvask_clausify_with_stats` on the same deck and tables. What a test takes beyond that is the difference of a \
         deck's medians: of the decks the median, and in brackets the greatest. It has the deck's second reading, the state's \
         reading, the test itself, and the clearing of the store and, once more, of scratch. The second evaluator is that of \
         `tests/states`, from the state's bytes to the verdict, the deck and its clauses being there already; it has one call \
         in a run, and is shown in the build in which it takes less time. All else is of the plain build. Where it is shown, \
         Gorvask's verdicts, and what it leaves in the store, are first compared with it. A broken axiom or clause ends a \
         test; so the states are these, of 64 elements each:\n\n\
         - *{HELD}*: a line for each class and role, most roles with about half of all pairs, or all. The state is drawn first; the \
         deck then has axioms of the forms of the realistic decks, as often as there, but each is drawn anew until it holds, \
         and until its clauses have at most four variables. The fresh classes have sets with which the clauses hold. So both \
         tests look at everything.\n\
         - *{WHOLE}*: the same decks; every class has all elements, every role all pairs. Both tests end early: it is the \
         reading of so many bytes.\n\
         - *{FOUR}*: as many clauses, and atoms too, as the tables hold, each of exactly four variables. The roles of each \
         clause's last variable are empty, all others whole, and its head is false: all hold, and for each clause all 64³ \
         elements of the first three variables are gone through, which is the most that the search can take. A test has one \
         call in a run. The second evaluator would go through 64⁴.\n"
    )
}

/// What a way takes beyond clausify: of the decks the median and the greatest.
fn beyond(row: &Row, way: Way) -> (f64, f64) {
    let of_deck = |deck: &Measured| deck.beyond(way, Way::Clausify);
    (row.median(of_deck), row.greatest(of_deck))
}

/// A kind's cells under "States tried".
fn state_cells(kind: &Builds) -> Vec<String> {
    let row = kind.plain();
    let time = |row: &Row, way| {
        let in_runs = runs(row.time_in_runs(way));
        format!("{} ({in_runs})", figure(row.time(way).median))
    };
    let mut cells = vec![
        row.name.clone(),
        range(row.range(|facts| facts.bytes)),
        range(row.range(|facts| facts.state)),
        range(row.range(|facts| facts.axioms)),
        range(row.range(|facts| facts.clauses)),
        time(row, Way::Clausify),
    ];
    for (way, second) in TESTS {
        let (median, greatest) = beyond(row, way);
        cells.push(time(row, way));
        cells.push(format!("{} ({})", figure(median), figure(greatest)));
        cells.push(if row.decks.iter().all(|deck| deck.has(second)) {
            time(kind.quickest(second), second)
        } else {
            "–".to_owned()
        });
    }
    cells
}

/// A text's cells under "Reading".
fn reading_cells(row: &Row) -> [String; 5] {
    let text = &row.decks[0];
    let bytes = text.read_bytes();
    let (speed, in_runs) = text.megabytes_per_second();
    let counts = Way::READING.map(|way| row.count_of(way));
    let by_byte = match counts {
        #[expect(clippy::cast_precision_loss, reason = "a few digits are shown")]
        [Some(all), Some(nothing)] => figure(all.saturating_sub(nothing) as f64 / bytes as f64),
        _ => "–".to_owned(),
    };
    [
        row.name.clone(),
        number(bytes),
        figure(text.beyond(Way::ReadAll, Way::ReadNothing)),
        format!("{} ({})", figure(speed), runs(in_runs)),
        by_byte,
    ]
}
