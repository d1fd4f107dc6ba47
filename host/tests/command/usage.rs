//! Help, version and wrong usage.

use crate::process::{read_text, run};

const HINT: &str = "gorvask: 'gorvask --help' says how it is used\n";

fn help() -> String {
    read_text("host/src/bin/gorvask/help.txt")
}

#[test]
fn no_argument_shows_how_to_start() {
    let ran = run::<&str>(&[]);
    assert_eq!((ran.status, ran.out.as_str()), (Some(2), ""));
    let (start, _) = help()
        .split_once("\nOptions:")
        .map(|(a, b)| (a.to_owned(), b.to_owned()))
        .expect("options");
    assert_eq!(ran.err, format!("{start}\n'gorvask --help' says more.\n"));
    assert!(ran.err.contains("./gorvask text examples/junction.deck"));
    assert!(ran.err.lines().count() <= 24);
}

#[test]
fn help_goes_to_standard_output() {
    for words in [
        &["--help"][..],
        &["-h"],
        &["help"],
        &["list", "--help"],
        &["text", "-h", "missing"],
    ] {
        let ran = run(words);
        assert_eq!(
            (ran.status, &ran.out, ran.err.as_str()),
            (Some(0), &help(), "")
        );
    }
}

#[test]
fn the_help_has_the_statuses() {
    for status in 0..=5 {
        assert!(help().contains(&format!("\n  {status}  ")), "{status}");
    }
}

#[test]
fn version_commit_and_toolchain() {
    for word in ["--version", "-V"] {
        let ran = run(&[word]);
        assert_eq!((ran.status, ran.err.as_str()), (Some(0), ""));
        let lines: Vec<&str> = ran.out.lines().collect();
        assert_eq!(lines[0], concat!("gorvask ", env!("CARGO_PKG_VERSION")));
        assert!(
            lines[1]
                .strip_prefix("commit ")
                .is_some_and(|commit| !commit.is_empty())
        );
        assert!(
            lines[2]
                .strip_prefix("proved with ")
                .is_some_and(|toolchain| !toolchain.is_empty())
        );
        assert_eq!(lines.len(), 3);
    }
}

/// Words and what is told of them.
const WRONG: &[(&[&str], &str)] = &[
    (
        &[""],
        "the subcommand's name is empty; there are list, text, check, try, session",
    ),
    (
        &["lst"],
        "there is no subcommand lst; there are list, text, check, try, session",
    ),
    (
        &["examples/junction.deck"],
        "examples/junction.deck is no subcommand; to list a deck of that name: gorvask list examples/junction.deck",
    ),
    (
        &["--unproved", "list"],
        "--unproved is known to the script gorvask at the repository's root, and stands first",
    ),
    (
        &["list", "a", "b"],
        "one deck at a time, and not both a and b",
    ),
    (
        &["list", "--names", "n"],
        "there is no option --names (known here: --lister-tables); a deck of that name is given behind --",
    ),
    (
        &["check", "-q"],
        "there is no option -q (none is known here); a deck of that name is given behind --",
    ),
    (&["text", "--names"], "--names takes a value: FILE"),
    (
        &["try", "examples/junction.deck"],
        "a state is tried with its deck, and both are named: gorvask try DECK STATE",
    ),
    (
        &["try", "a", "b", "c"],
        "one deck and one state at a time, and not c too",
    ),
    (
        &["try", "-", "-"],
        "the deck and the state cannot both be on standard input",
    ),
    (
        &["try", "a", "b", "-q"],
        "there is no option -q (known here: --axioms, --clauses, --rows, --names); a file of that name is given behind --",
    ),
    (&["try", "--rows=1", "a", "b"], "--rows takes no value"),
    (
        &["session", ""],
        "the deck's name is empty: name a file, or leave it out",
    ),
    (
        &["session", "-"],
        "the deck cannot be on standard input, where the commands are",
    ),
    (
        &["session", "a", "b"],
        "one deck at a time, and not both a and b",
    ),
    (
        &["session", "--names", "n"],
        "there is no option --names (known here: --rows); a deck of that name is given behind --",
    ),
    (&["--version", "x"], "--version stands alone"),
];

#[test]
fn wrong_usage_is_told() {
    for (words, told) in WRONG {
        let ran = run(words);
        assert_eq!((ran.status, ran.out.as_str()), (Some(2), ""));
        assert_eq!(ran.err, format!("gorvask: {told}\n{HINT}"));
    }
}
