//! `gorvask session`: what is refused, what is not understood, and how it ends.

use std::fs::OpenOptions;
use std::process::Stdio;

use crate::common::{equivalent, many_visits, row, worked};
use crate::process::{Ran, Scratch, command, run, run_on};

/// A session of a deck and these commands, a line for each.
fn session(name: &str, deck: &[u8], options: &[&str], commands: &[&str]) -> Ran {
    let deck = Scratch::new(&format!("{name}.deck"), deck);
    let words = [&["session", deck.path()], options].concat();
    run_on(&words, commands.join("\n").as_bytes())
}

/// A command that the worked deck's session refuses, with the reply and the cause.
const REFUSED: &[(&str, u32, u32, &str)] = &[
    (
        "add 3 2",
        3,
        6,
        "column 11: kind 3 (Atomic); what is added is one line of the kinds 21 to 36 (axioms)",
    ),
    (
        "add 99",
        3,
        6,
        "column 10: there is no kind 99; what is added is one line of the kinds 21 to 36 (axioms)",
    ),
    (
        "add 21 0",
        3,
        6,
        "kind 21 (SubClassOf) takes 2 numbers after the kind (sub, sup), 1 was found",
    ),
    (
        "add 21 0 3",
        5,
        6,
        "column 33: there is no concept 3; the deck has 3 concepts (0 to 2)",
    ),
    (
        "strike 4",
        15,
        0,
        "there is no axiom on line 4: kind 9 (Some) stands there, and the one axiom stands on line 5",
    ),
    (
        "strike 6",
        15,
        0,
        "there is no axiom on line 6: the last line is 5, and the one axiom stands on line 5",
    ),
    ("options 16", 4, 1, "column 54: options 16; 15 is the most"),
    (
        "add examples/junction.deck",
        3,
        6,
        "1624 bytes behind its line feed; what is added is one line of the kinds 21 to 36 (axioms)",
    ),
    (
        "add /dev/null",
        3,
        6,
        "an empty text; what is added is one line of the kinds 21 to 36 (axioms)",
    ),
];

#[test]
fn a_refusal_is_told_and_the_session_goes_on() {
    for (asked, number, line, cause) in REFUSED {
        let ran = session("refused", &worked(), &[], &[asked, "axioms"]);
        let answer = format!("refused by number {number}, line {line}");
        assert_eq!(
            ran.out,
            format!("done\n{answer}\n    5  21 0 2\n"),
            "{asked}"
        );
        let place = if *line == 0 {
            String::new()
        } else {
            format!(", line {line}")
        };
        let first = format!("gorvask: {asked}: refused by number {number}{place}: ");
        assert!(ran.err.starts_with(&first), "{}", ran.err);
        assert!(ran.err.contains("\ngorvask: to do: "));
        let cause = format!("\ngorvask: cause, by a reading that is not proved: {cause}\n");
        assert!(ran.err.ends_with(&cause), "{}", ran.err);
        assert_eq!(ran.status, Some(4));
        let ran = session("refused", &worked(), &["--rows"], &[asked]);
        assert_eq!(ran.out, row(&[49, 0, 0]) + &row(&[49, *number, *line]));
        assert_eq!(ran.status, Some(4));
    }
}

#[test]
fn a_refusal_in_full() {
    let ran = session("full", &worked(), &[], &["add 28 2"]);
    assert_eq!(
        ran.err,
        "gorvask: add 28 2: refused by number 5, line 6: a class, individual or role is not among those that the header \
         counts, or an axiom names a concept line that is not there. Counting starts at 0, and a role is named by its code, \
         twice its id, plus 1 for the inverse\n\
         gorvask: to do: correct the number, or the header's counts\n\
         gorvask: line 6 is:          28          2\n\
         gorvask: cause, by a reading that is not proved: column 22: there is no role code 2; the header counts 1 role (codes \
         0 and 1)\n"
    );
    let ran = session("empty", &worked(), &[], &["add /dev/null"]);
    assert!(
        ran.err.contains("\ngorvask: the text is empty\n"),
        "{}",
        ran.err
    );
}

#[test]
fn a_text_without_end_is_too_long() {
    let ran = session("long", &worked(), &["--rows"], &["add /dev/zero"]);
    assert_eq!(ran.out, row(&[49, 0, 0]) + &row(&[49, 2, 0]));
    assert_eq!(
        ran.err,
        "gorvask: add /dev/zero: refused by number 2: the deck has over 65,536 bytes\n\
         gorvask: to do: set the line anew in its columns; split a deck that is too long\n"
    );
}

#[test]
fn a_refused_start_leaves_no_session() {
    let bad = Scratch::new("bad-start.deck", b"          0\n");
    let start = format!("start {}", bad.path());
    let asked = [
        "add 29 0",
        "strike 5",
        "options 3",
        "take",
        "text",
        "axioms",
        "save no",
    ];
    let ran = session(
        "no-session",
        &worked(),
        &["--rows"],
        &[&[&start[..]], &asked[..]].concat(),
    );
    let none = row(&[49, 1, 0]).repeat(asked.len());
    assert_eq!(ran.out, row(&[49, 0, 0]) + &row(&[49, 3, 1]) + &none);
    assert!(ran.err.starts_with(&format!(
        "gorvask: {}: refused by number 3, line 1: ",
        bad.path()
    )));
    assert!(ran.err.contains(
        "gorvask: take: refused by number 1: there is no session, as none was started or the last start was refused\n\
         gorvask: to do: start one, by 'start FILE'\n"
    ));
    assert_eq!(ran.status, Some(4));
}

#[test]
fn sessions_before_and_behind_a_refused_start() {
    let bad = Scratch::new("bad-other.deck", b"          0\n");
    let none = "refused by number 1, line 0\n";
    let refused = "refused by number 3, line 1\n";
    let ran = run_on(&["session"], b"take\n");
    assert_eq!((ran.status, ran.out.as_str()), (Some(4), none));
    let next = format!(
        "start {}\nstart examples/junction.deck\nstrike 34\n",
        bad.path()
    );
    let ran = run_on(&["session"], next.as_bytes());
    assert_eq!(ran.out, format!("{refused}done\ndone\n"));
    let ran = run_on(&["session", bad.path()], b"take\n");
    assert_eq!(ran.out, format!("{refused}{none}"));
}

#[test]
fn a_take_that_is_refused_goes_on() {
    let (number, line, deck) = many_visits();
    let line = line.expect("a line");
    let strike = format!("strike {line}");
    let ran = session("visits", &deck, &[], &["take", &strike, "take"]);
    let end = row(&[43, 0, 0, 0, 0, 0, 0, 0, 0, 0, 0]);
    assert_eq!(
        ran.out,
        format!("done\n{}done\n{end}", row(&[49, number, line]))
    );
    assert!(ran.err.starts_with(&format!(
        "gorvask: take: refused by number 10, line {line}: "
    )));
    assert_eq!(ran.status, Some(4));
    let ran = session("room", &equivalent(128, 5), &[], &["take"]);
    let words = "gorvask: the largest tables were lent: 65,536 clauses, 262,144 atoms and 65,536 deferrals\n";
    assert!(ran.out.ends_with("         49         12        134\n") && ran.err.contains(words));
}

/// Commands that ask nothing of the session, and what is told.
const BAD: &[(&str, &str)] = &[
    (
        "undo",
        "there is no command undo; 'help' lists those there are",
    ),
    ("start", "start takes a file: start FILE"),
    ("start missing.deck", "there is no file missing.deck"),
    ("start examples", "examples is a directory, and no deck"),
    (
        "add",
        "add takes the numbers of one axiom, or a file: add 21 0 1, or add FILE",
    ),
    ("add 21 0 x", "x is no number"),
    (
        "add 21 0 4294967296",
        "4294967296 is larger than 4294967295, the largest number",
    ),
    ("add missing.line", "there is no file missing.line"),
    ("add examples", "examples is a directory, and no axiom"),
    ("strike last", "last is no number"),
    ("strike 5 6", "strike takes one number: strike LINE"),
    ("options", "options takes one number: options N"),
    ("take it", "take stands alone"),
];

#[test]
fn a_bad_command_is_told_and_the_session_goes_on() {
    for (asked, told) in BAD {
        let ran = session("bad", &worked(), &[], &[asked, "axioms"]);
        assert_eq!(ran.out, "done\n    5  21 0 2\n", "{asked}");
        assert_eq!(
            (ran.status, ran.err),
            (Some(2), format!("gorvask: {told}\n"))
        );
        let ran = session("bad", &worked(), &["--rows"], &[asked]);
        assert_eq!(ran.out, row(&[49, 0, 0]) + &row(&[49]));
    }
}

#[test]
fn a_file_that_cannot_be_written() {
    for (file, why) in [
        ("examples", "Is a directory"),
        ("missing/deck", "No such file or directory"),
    ] {
        let save = format!("save {file}");
        let ran = session(
            "unwritten",
            &worked(),
            &["--rows"],
            &[&save, "bad", "strike 1"],
        );
        assert_eq!(
            ran.out,
            row(&[49, 0, 0]) + &row(&[49]).repeat(2) + &row(&[49, 15, 0])
        );
        let told = format!("gorvask: {file} cannot be written: {why}");
        assert!(ran.err.starts_with(&told), "{}", ran.err);
        assert_eq!(ran.status, Some(1));
    }
}

#[test]
fn the_status_is_the_gravest() {
    let weak = [worked(), row(&[27, 0, 0, 0, 0]).into_bytes()].concat();
    for (commands, status) in [
        (&["axioms"][..], 0),
        (&["take"], 3),
        (&["take", "strike 6", "take"], 3),
        (&["take", "strike 1"], 4),
        (&["strike 1", "take"], 4),
        (&["strike 1", "bad", "take"], 2),
        (&["bad", "strike 1"], 2),
        (&["save examples", "bad"], 1),
    ] {
        let ran = session("grave", &weak, &[], commands);
        assert_eq!(ran.status, Some(status), "{commands:?}");
    }
    let ran = session("weak", &weak, &[], &["take"]);
    assert!(ran.err.starts_with(
        "gorvask: take: accepted, not promised whole: line 6: the chain has not two parts"
    ));
}

#[test]
fn the_input_itself() {
    let folder = std::fs::File::open("/").expect("a directory");
    let output = command(&["session"]).stdin(Stdio::from(folder)).output();
    let ran = Ran::from(output.expect("a run"));
    assert_eq!((ran.status, ran.out.as_str()), (Some(2), ""));
    assert!(
        ran.err
            .starts_with("gorvask: standard input cannot be read: ")
    );
    // A line without end is not read to its end.
    let zero = std::fs::File::open("/dev/zero").expect("a file");
    let output = command(&["session"]).stdin(Stdio::from(zero)).output();
    let ran = Ran::from(output.expect("a run"));
    assert_eq!(
        ran.err,
        "gorvask: a command has over 65536 bytes; it and what follows are not read\n"
    );
    assert_eq!((ran.status, ran.out.as_str()), (Some(2), ""));
    let long = format!("# {}\nquit\n", "x".repeat(65_533));
    assert_eq!(run_on(&["session"], long.as_bytes()).status, Some(0));
}

#[test]
fn a_deck_that_cannot_be_read_is_bad_usage() {
    for (word, told) in [
        ("missing.deck", "there is no file missing.deck"),
        ("examples", "examples is a directory, and no deck"),
    ] {
        let ran = run_on(&["session", word], b"start examples/junction.deck\n");
        assert_eq!((ran.status, ran.out.as_str()), (Some(2), ""));
        assert_eq!(ran.err, format!("gorvask: {told}\n"));
    }
}

fn full() -> Stdio {
    let full = OpenOptions::new().write(true).open("/dev/full");
    Stdio::from(full.expect("/dev/full"))
}

#[test]
fn an_output_that_cannot_be_written_ends_the_session() {
    let words = ["session", "--rows", "examples/junction.deck"];
    let output = command(&words).stdout(full()).output().expect("a run");
    let ran = Ran::from(output);
    assert_eq!(ran.status, Some(1));
    assert!(
        ran.err
            .starts_with("gorvask: the output cannot be written: ")
    );
    let output = command(&["session", "examples/junction.listing"])
        .stderr(full())
        .output();
    assert_eq!(output.expect("a run").status.code(), Some(1));
    assert_eq!(run(&["session", "examples/junction.deck"]).out, "done\n");
}
