//! Decks that cannot be read: words of their own, status 2, and never another deck's answer.

use std::ffi::OsStr;
use std::os::unix::ffi::OsStrExt;
use std::process::Stdio;

use crate::process::{Ran, command, read, read_text, run, run_on};

/// What is told, for each subcommand.
fn told(word: &str) -> String {
    let told = ["list", "text", "check"].map(|subcommand| {
        // Not even standard input has an answer.
        let ran = run_on(&[subcommand, word], &read("examples/junction.deck"));
        assert_eq!((ran.status, ran.out.as_str()), (Some(2), ""), "{word}");
        ran.err
    });
    assert!(told.iter().all(|other| *other == told[0]));
    let [first, ..] = told;
    first
}

#[test]
fn each_has_its_own_words() {
    assert_eq!(
        told(""),
        "gorvask: the deck's name is empty: name a file, or take - or nothing for standard input\n\
         gorvask: 'gorvask --help' says how it is used\n"
    );
    assert_eq!(
        told("examples"),
        "gorvask: examples is a directory, and no deck\n"
    );
    assert_eq!(
        told("missing.deck"),
        "gorvask: there is no file missing.deck\n"
    );
    let beyond = told("examples/junction.deck/deck");
    assert!(
        beyond.starts_with("gorvask: examples/junction.deck/deck cannot be read: "),
        "{beyond}"
    );
}

#[test]
fn a_name_that_is_no_text() {
    let name = OsStr::from_bytes(b"missing-\xff.deck");
    let ran: Ran = run(&[OsStr::new("list"), name]);
    assert_eq!((ran.status, ran.out.as_str()), (Some(2), ""));
    assert_eq!(ran.err, "gorvask: there is no file missing-\u{fffd}.deck\n");
}

#[test]
fn a_name_with_a_hyphen_stands_behind_two() {
    let ran = run(&["list", "--", "-missing"]);
    assert_eq!(ran.err, "gorvask: there is no file -missing\n");
    let ran = run(&["list", "--", "examples/junction.deck"]);
    assert_eq!(ran.out, read_text("examples/junction.listing"));
}

#[test]
fn standard_input_that_is_a_directory() {
    let folder = std::fs::File::open("/").expect("a directory");
    let output = command(&["list"]).stdin(Stdio::from(folder)).output();
    let ran = Ran::from(output.expect("a run"));
    assert_eq!((ran.status, ran.out.as_str()), (Some(2), ""));
    assert!(
        ran.err
            .starts_with("gorvask: standard input cannot be read: "),
        "{}",
        ran.err
    );
}

#[test]
fn nothing_on_standard_input_is_an_empty_deck() {
    let ran = run(&["list"]);
    assert_eq!(
        (ran.status, ran.out.as_str()),
        (Some(4), "         49          3          1\n")
    );
    assert!(ran.err.contains("gorvask: the deck is empty\n"));
}
