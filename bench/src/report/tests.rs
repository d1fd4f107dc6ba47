//! Pages of stored runs.

use super::Report;
use crate::decks::REALISTIC;
use crate::sessions::JUNCTION;
use crate::store::Run;
use crate::trials::{FOUR, HELD};

/// A run of one deck and one size, with what Gorvask takes if it is measured.
fn run(build: &str, others: f64, [rust, alone]: [f64; 2], ours: Option<f64>) -> Run {
    let ours = ours.map_or(String::new(), |ours| {
        format!(
            "time\tGorvask\t{ours}\ntime\tGorvask, first call\t{}\ntime\tclearing tables\t0.125\n\
             time\tclearing scratch\t0.25\n",
            2.0 * ours
        )
    });
    let deck = format!(
        "deck\t1000\t0\t2\t3\t4\t5\t6\t7\n{ours}time\tRust\t{rust}\ntime\tRust alone\t{alone}\n\
         time\treading and conversion\t0.5\n"
    );
    let states = if ours.is_empty() {
        String::new()
    } else {
        states(build, rust) + &sessions(rust)
    };
    let text = format!(
        "run\t{build}\t1\t{others}\tperf\nrow\t{REALISTIC}\ncount\tRust\t5000000\n{deck}series\t16\n{deck}{states}"
    );
    Run::of(&text).expect("a run")
}

/// Two decks of which the second evaluator takes so long, one that has it not, and a text of 5,000 bytes. Calls take three times
/// as long in the other build.
fn states(build: &str, second: f64) -> String {
    let times = if build == "plain" { 1.0 } else { 3.0 };
    let tried = |ours: [f64; 3]| {
        let [clausify, axioms, clauses] = ours.map(|time| times * time);
        format!("time\tclausify\t{clausify}\ntime\taxioms\t{axioms}\ntime\tclauses\t{clauses}\n")
    };
    let beside = format!(
        "time\tsecond evaluator, axioms\t{second}\ntime\tsecond evaluator, clauses\t{}\n",
        10.0 * second
    );
    format!(
        "state\t{HELD}\ncount\tclausify\t1000000\ncount\taxioms\t3000000\ncount\tclauses\t6000000\n\
         deck\t1000\t9000\t900\t3\t4\t5\t6\t7\n{}{beside}deck\t1001\t9001\t900\t4\t4\t5\t6\t7\n{}{beside}\
         state\t{FOUR}\ndeck\t2000\t8000\t1024\t65536\t4\t5\t6\t7\n{}reading\ta state\n\
         count\trefused at the last line\t80000\ncount\trefused at the first line\t5000\n\
         deck\t56\t5000\t0\t0\t0\t5\t6\t7\ntime\trefused at the last line\t{}\n\
         time\trefused at the first line\t0.25\n",
        tried([0.25, 1.25, 2.25]),
        tried([0.25, 2.25, 5.25]),
        tried([5.0, 6.0, 6_558.6]),
        0.25 + second / 100.0
    )
}

/// Two decks with their sessions: a start takes 1 ms, what Rust takes is given.
fn sessions(rust: f64) -> String {
    let deck = |slower: f64| {
        let ours = [
            ("clausify", 1.0),
            ("start and clausify", 2.0),
            ("start", 1.0),
            ("add", 0.75 * slower),
            ("strike", 0.5 * slower),
            ("options", 0.5),
            ("take", 1.5 * slower),
        ];
        let calls = ["start", "add", "strike", "options", "take"];
        let ours = ours.map(|(name, time)| format!("time\t{name}\t{time}\n"));
        let theirs = calls.map(|name| format!("time\tRust, {name}\t{rust}\n"));
        format!(
            "deck\t700\t0\t2\t3\t4\t5\t6\t7\n{}{}",
            ours.concat(),
            theirs.concat()
        )
    };
    let names = "clausify,start and clausify,start,add,strike,options,take";
    let counts = names
        .split(',')
        .map(|name| format!("count\t{name}\t2500000\n"));
    let counts: String = counts.collect();
    format!("session\t{JUNCTION}\n{counts}{}{}", deck(1.0), deck(1.5))
}

/// Three runs, in no order: Rust takes less time in the plain build, Rust alone in the other.
fn runs(ours: bool) -> Vec<Run> {
    let ours = |time| ours.then_some(time);
    vec![
        run("LTO", 0.0, [4.0, 1.0], ours(8.0)),
        run("plain", 0.001, [2.0, 1.5], ours(1.0)),
        run("plain", 0.01, [2.5, 1.75], ours(1.5)),
    ]
}

fn page(ours: bool) -> String {
    Report::of("a day", "a machine", "tools", runs(ours)).page()
}

/// The cells of the first row under a heading, each with its column's name.
fn cells(page: &str, heading: &str) -> Vec<(String, String)> {
    let (_, below) = page
        .split_once(&format!("\n## {heading}\n"))
        .expect("a heading");
    let mut rows = below.lines().filter(|line| line.starts_with('|'));
    let [head, _, first] = [(); 3].map(|()| rows.next().expect("a row"));
    let parts = |row: &str| -> Vec<String> {
        let cells = row.trim_matches('|').split('|');
        cells.map(|cell| cell.trim().to_owned()).collect()
    };
    parts(head).into_iter().zip(parts(first)).collect()
}

fn has(cells: &[(String, String)], name: &str, cell: &str) {
    let found = cells.iter().find(|(of, _)| of == name);
    assert_eq!(found.map(|(_, cell)| cell.as_str()), Some(cell), "{name}");
}

#[test]
fn times_with_their_spread_and_builds() {
    let times = cells(&page(true), "Times");
    for (name, cell) in [
        ("deck", REALISTIC),
        ("Gorvask, ms", "1.25 (1.00 to 1.50)"),
        ("first call, ms", "2.50 (2.00 to 3.00)"),
        ("Rust, ms", "2.25 (2.00 to 2.50)"),
        ("Rust alone, ms", "1.00 (1.00 to 1.00)"),
        ("reading and conversion, ms", "0.500 (0.500 to 0.500)"),
        ("their share of Rust", "22 %"),
        ("Rust's build", "plain"),
        ("Rust alone's build", "LTO"),
    ] {
        has(&times, name, cell);
    }
}

#[test]
fn ratios_with_their_spread() {
    let ratios = cells(&page(true), "Gorvask by Rust");
    has(&ratios, "Gorvask by Rust", "0.550 (0.525 to 0.575)");
    has(&ratios, "in the runs", "0.500 to 0.600");
    has(&ratios, "Gorvask by Rust alone", "8.00 (8.00 to 8.00)");
}

#[test]
fn the_other_tables() {
    let page = page(true);
    let clearing = cells(&page, "Memory and clearing");
    has(&clearing, "Gorvask without clearing, ms", "0.875");
    let counts = cells(&page, "Instructions");
    has(&counts, "Rust", "5.00");
    has(&counts, "Gorvask", "–");
    let growth = cells(&page, "How time grows");
    has(&growth, "Rust alone, ms", "1.00");
    has(&growth, "Rust, µs per KB", "2250");
    for words in [
        "2 whole runs of the plain build and 1 of the other",
        "Other work took at most 1.0 % of the processors' time in a run.",
        "Tools: tools.",
    ] {
        assert!(page.contains(words), "{words}");
    }
}

#[test]
fn states_with_what_they_take_beyond_clausify() {
    let page = page(true);
    let states = cells(&page, "States tried");
    for (name, cell) in [
        ("deck and state", HELD),
        ("deck, bytes", "1,000 to 1,001"),
        ("state, bytes", "9,000 to 9,001"),
        ("clausify, ms", "0.250 (0.250 to 0.250)"),
        ("axioms, ms", "1.75 (1.75 to 1.75)"),
        ("axioms beyond clausify, ms", "1.50 (2.00)"),
        ("second evaluator, axioms, ms", "2.25 (2.00 to 2.50)"),
        ("clauses beyond clausify, ms", "3.50 (5.00)"),
        ("second evaluator, clauses, ms", "22.5 (20.0 to 25.0)"),
    ] {
        has(&states, name, cell);
    }
    for words in [
        "take together 5.00 ms beyond clausify, and 7.00 ms for the slowest of the 2 decks.",
        "By perf, of the first deck: 1.00 million instructions for clausify, 2.00 more for the axioms, 5.00 more for",
        "65,536 clauses of four variables over 64 elements are tested in 6.55 s, 100 µs for each.",
        "| 65,536 | 5.00 (5.00 to 5.00) | 6.00 (6.00 to 6.00) | 1.00 (1.00) | – |",
    ] {
        assert!(page.contains(words), "{words}");
    }
}

#[test]
fn reading_by_time_and_by_instructions() {
    let reading = cells(&page(true), "Reading");
    for (name, cell) in [
        ("text", "a state"),
        ("bytes", "5,000"),
        ("ms", "0.0225"),
        ("MB/s", "222 (200 to 250)"),
        ("instructions for each byte", "15.0"),
    ] {
        has(&reading, name, cell);
    }
}

#[test]
fn sessions_beside_what_they_may_take() {
    let page = page(true);
    let first = cells(&page, "A session");
    has(&first, "call", "clausify");
    has(&first, "at most, ms", "–");
    for row in [
        "| start | 1.00 (1.00 to 1.00) | – | – | – | – | 2.25 (2.00 to 2.50) | 0.450 (0.400 to 0.500) |",
        "| add | 0.938 (0.938 to 0.938) | 1.00 (1.00 to 1.00) | 0.938 (0.750 to 1.12) | 0.938 to 0.938 | 1.12 |",
        "| take | 1.88 (1.88 to 1.88) | 2.00 (2.00 to 2.00) | 0.938 (0.750 to 1.12) | 0.938 to 0.938 | 1.12 |",
        "a call on the first deck of *junction*: clausify 2.50, start and clausify 2.50, start 2.50, add 2.50,",
    ] {
        assert!(page.contains(row), "{row}");
    }
}

#[test]
fn sessions_alone() {
    let text = format!("run\tplain\t1\t0.015\tperf\n{}", sessions(2.0));
    let run = Run::of(&text).expect("a run");
    let report = Report::of("a day", "a machine", "tools", vec![run]);
    assert!(report.whole().is_err());
    let page = report.page();
    assert!(page.starts_with("## A session\n"));
    assert!(page.ends_with(
        "Measured on a day: a machine; 1 runs of the plain build and 0 of the other, with 1 rounds. Other work took at most 1.5 % \
         of the processors' time in a run. Tools: tools.\n"
    ));
    assert!(!page.contains("# Performance"));
}

#[test]
fn without_gorvask_its_columns_are_missing() {
    let page = page(false);
    for heading in ["## States tried", "## Reading", "## A session"] {
        assert!(!page.contains(heading), "{heading}");
    }
    let times = cells(&page, "Times");
    has(&times, "Rust, ms", "2.25 (2.00 to 2.50)");
    assert!(times.iter().all(|(name, _)| !name.contains("Gorvask")));
    assert!(!page.contains("## Gorvask by Rust") && !page.contains("first call"));
}

#[test]
fn much_other_work_is_told() {
    let report = |others| {
        let run = run("plain", others, [1.0, 1.0], None);
        Report::of("", "", "", vec![run])
    };
    assert_eq!(report(0.02).quiet(), Ok(()));
    let words = report(0.0534).quiet().expect_err("much other work");
    assert!(words.starts_with(
        "other work took 5.3 % of the processors' time in a run, and 2 % is the most"
    ));
}

/// A deck with option 8 has Gorvask's times alone, and no ratio.
#[test]
fn without_the_rust_its_cells_are_empty() {
    let text = format!(
        "run\tplain\t1\t0.0\tperf\nrow\tfollowed\ndeck\t1000\t0\t2\t3\t4\t5\t6\t7\ntime\tGorvask\t2\n\
         time\tGorvask, first call\t4\ntime\tclearing tables\t0.125\ntime\tclearing scratch\t0.25\n{}",
        run("plain", 0.0, [2.0, 1.5], Some(1.0))
            .text()
            .split_once("\n")
            .expect("lines")
            .1
    );
    let run = Run::of(&text).expect("a run");
    let page = Report::of("a day", "a machine", "tools", vec![run]).page();
    let times = cells(&page, "Times");
    for (name, cell) in [
        ("deck", "followed"),
        ("Gorvask, ms", "2.00 (2.00 to 2.00)"),
        ("Rust, ms", "–"),
        ("their share of Rust", "–"),
        ("Rust alone's build", "–"),
    ] {
        has(&times, name, cell);
    }
    has(&cells(&page, "Gorvask by Rust"), "deck", REALISTIC);
    let clearing = cells(&page, "Memory and clearing");
    has(&clearing, "Gorvask without clearing, ms", "1.62");
}
