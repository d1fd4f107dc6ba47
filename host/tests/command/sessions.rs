//! `gorvask session`: commands in the order in which they come, and their answers.

use crate::common::{deck, row, worked};
use crate::process::{Ran, Scratch, read, read_text, run, run_on};

const JUNCTION: &str = "examples/junction.deck";
const WHOLE: &str = "accepted, promised whole: no axiom of the kinds 21 to 31 is lost or weakened";

/// A session of the worked deck and these commands, a line for each.
fn session(name: &str, options: &[&str], commands: &[&str]) -> Ran {
    let deck = Scratch::new(&format!("{name}.deck"), &worked());
    let words = [&["session", deck.path()], options].concat();
    let mut input = commands.join("\n");
    input.push('\n');
    run_on(&words, input.as_bytes())
}

/// The rows, of numbers.
fn rows(rows: &[&[u32]]) -> String {
    rows.iter().map(|numbers| row(numbers)).collect()
}

#[test]
fn a_take_is_a_listing() {
    for words in [&["session", JUNCTION][..], &["session", "--rows", JUNCTION]] {
        let ran = run_on(words, b"take\n");
        let first = if words.len() == 2 {
            "done\n"
        } else {
            "         49          0          0\n"
        };
        assert_eq!(
            ran.out,
            first.to_owned() + &read_text("examples/junction.listing")
        );
        assert_eq!(ran.err, format!("gorvask: take: {WHOLE}\n"));
        assert_eq!(ran.status, Some(0));
    }
}

#[test]
fn each_command_has_its_answer() {
    let commands = ["add 23 0 1", "axioms", "strike 5", "options 7", "text"];
    let ran = session("answers", &[], &commands);
    let live = deck(&[
        vec![0, 3, 0, 1, 7],
        vec![3, 0],
        vec![3, 1],
        vec![9, 0, 1],
        vec![23, 0, 1],
    ]);
    let live = String::from_utf8(live).expect("a text");
    assert_eq!(
        ran.out,
        format!("done\ndone\n    5  21 0 2\n    6  23 0 1\ndone\ndone\n{live}")
    );
    assert_eq!((ran.status, ran.err.as_str()), (Some(0), ""));
    let ran = session("rows", &["--rows"], &commands);
    let done: &[u32] = &[49, 0, 0];
    let axioms: [&[u32]; 3] = [&[40, 5, 21, 0, 2], &[40, 6, 23, 0, 1], done];
    assert_eq!(
        ran.out,
        rows(&[done, done]) + &rows(&axioms) + &rows(&[done, done]) + &live + &rows(&[done])
    );
    assert_eq!((ran.status, ran.err.as_str()), (Some(0), ""));
}

#[test]
fn help_and_quit() {
    let help = read_text("host/src/bin/gorvask/session/help.txt");
    let ran = run_on(&["session"], b"help\nquit\nbad\n");
    assert_eq!(
        (ran.status, &ran.out, ran.err.as_str()),
        (Some(0), &help, "")
    );
    let ran = run_on(&["session", "--rows"], b"help\nquit\nbad\n");
    let done = rows(&[&[49, 0, 0]]);
    assert_eq!((ran.status, &ran.out, &ran.err), (Some(0), &done, &help));
    for line in read_text("host/src/bin/gorvask/session/help.txt").lines() {
        assert!(line.chars().count() <= 80, "{line}");
    }
}

#[test]
fn nothing_to_do() {
    for input in [&b""[..], b"\n\n", b"# a word\n", b"quit", b"  quit \r\n"] {
        let ran = run_on(&["session"], input);
        assert_eq!(
            (ran.status, ran.out.as_str(), ran.err.as_str()),
            (Some(0), "", "")
        );
    }
}

#[test]
fn line_ends_marks_and_a_last_line_that_is_cut() {
    for input in [
        &b"strike 5\r\nadd 29 0\r\naxioms\r\n"[..],
        b"\xef\xbb\xbfstrike 5\n\n  # the same\nadd  29\t0\naxioms",
        b"strike 5\nadd 29 0\naxioms",
    ] {
        let deck = Scratch::new("ends.deck", &worked());
        let ran = run_on(&["session", deck.path()], input);
        assert_eq!(ran.out, "done\ndone\ndone\n    5  29 0\n");
        assert_eq!((ran.status, ran.err.as_str()), (Some(0), ""));
    }
}

#[test]
fn files_are_added_and_saved_as_they_are() {
    let line = Scratch::new("added line", row(&[29, 0]).as_bytes());
    let saved = Scratch::new("saved deck", b"something that goes");
    let [add, save, start] = [("add", &line), ("save", &saved), ("start", &saved)]
        .map(|(command, file)| format!("{command} {}", file.path()));
    let ran = session("files", &[], &[&add, &save, "strike 6", &start, "axioms"]);
    assert_eq!(
        ran.out,
        "done\ndone\ndone\ndone\ndone\n    5  21 0 2\n    6  29 0\n"
    );
    assert_eq!((ran.status, ran.err.as_str()), (Some(0), ""));
    let bytes = std::fs::read(saved.path()).expect("what was saved");
    assert_eq!(bytes, [worked(), row(&[29, 0]).into_bytes()].concat());
}

#[test]
fn a_start_replaces_the_session() {
    let ran = session(
        "replaced",
        &["--rows"],
        &[&format!("start {JUNCTION}"), "take"],
    );
    let start = rows(&[&[49, 0, 0], &[49, 0, 0]]);
    assert_eq!(ran.out, start + &read_text("examples/junction.listing"));
}

/// The session of the pages: what is struck is added again, and stands last.
#[test]
fn a_rule_of_the_junction_is_struck_and_added() {
    let ran = run_on(
        &["session", "--rows", JUNCTION],
        b"strike 49\ntake\nadd 21 11 22\ntext\ntake\n",
    );
    let ends: Vec<&str> = ran
        .out
        .lines()
        .filter(|row| row.starts_with("         43"))
        .collect();
    let counts: Vec<&str> = ends.iter().map(|row| row[11..22].trim()).collect();
    assert_eq!(counts, ["38", "41"]);
    let text = String::from_utf8(read(JUNCTION)).expect("a text");
    let mut lines: Vec<&str> = text.lines().collect();
    let struck = lines.remove(48);
    lines.push(struck);
    assert!(ran.out.contains(&format!("{}\n", lines.join("\n"))));
    assert_eq!(ran.status, Some(0));
    assert_eq!(run(&["session", "--rows"]).out, "");
}
