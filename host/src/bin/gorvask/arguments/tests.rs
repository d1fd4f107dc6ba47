use std::ffi::{OsStr, OsString};
use std::os::unix::ffi::OsStrExt;

use super::{Arguments, Files, Form};
use crate::ended::Failure;

const FORMS: &[Form] = &[
    Form {
        name: "--names",
        value: Some("FILE"),
    },
    Form {
        name: "--flag",
        value: None,
    },
];

fn read_for(files: Files, words: &[&str]) -> Result<Arguments, String> {
    let words: Vec<OsString> = words.iter().map(OsString::from).collect();
    Arguments::read(&words, files, FORMS).map_err(|failure| match failure {
        Failure::Usage(words) => words,
        other => panic!("no fault of usage: {other:?}"),
    })
}

fn read(words: &[&str]) -> Result<Arguments, String> {
    read_for(Files::Deck, words)
}

#[test]
fn the_deck_in_any_place() {
    for words in [
        &["d", "--names", "n", "--flag"][..],
        &["--flag", "--names=n", "d"],
        &["--names", "n", "--flag", "--", "d"],
    ] {
        let arguments = read(words).expect("arguments");
        assert_eq!(arguments.deck(), Some(OsStr::new("d")));
        assert_eq!(arguments.option("--names"), Some(OsStr::new("n")));
        assert_eq!(arguments.option("--flag"), Some(OsStr::new("")));
    }
    let behind = read(&["--", "--flag"]).expect("arguments");
    assert_eq!(behind.deck(), Some(OsStr::new("--flag")));
    assert_eq!(behind.option("--flag"), None);
}

#[test]
fn a_value_that_is_no_text() {
    for (word, value) in [
        (&b"--names=n\xff"[..], &b"n\xff"[..]),
        (b"--names=a=\xfe", b"a=\xfe"),
        (b"--names=", b""),
    ] {
        let words = [OsStr::from_bytes(word).to_owned()];
        let arguments = Arguments::read(&words, Files::Deck, FORMS).expect("arguments");
        let names = arguments.option("--names");
        assert_eq!(names, Some(OsStr::from_bytes(value)));
    }
}

#[test]
fn standard_input() {
    for words in [&[][..], &["-"], &["--", "-"], &["--names", "-"]] {
        assert_eq!(read(words).expect("arguments").deck(), None);
    }
}

#[test]
fn what_is_wrong_is_told() {
    for (words, told) in [
        (
            &[""][..],
            "the deck's name is empty: name a file, or take - or nothing for standard input",
        ),
        (&["a", "b"], "one deck at a time, and not both a and b"),
        (&["-", "-"], "one deck at a time, and not both - and -"),
        (&["--names"], "--names takes a value: FILE"),
        (&["--flag=1"], "--flag takes no value"),
        (&["--flag", "--flag"], "--flag is given twice"),
        (
            &["--fla"],
            "there is no option --fla (known here: --names, --flag); a deck of that name is given behind --",
        ),
        (
            &["-n"],
            "there is no option -n (known here: --names, --flag); a deck of that name is given behind --",
        ),
    ] {
        assert_eq!(read(words).map(|_| ()), Err(told.to_owned()));
    }
}

#[test]
fn a_deck_and_a_state() {
    for (words, deck, state) in [
        (&["d", "s"][..], Some("d"), Some("s")),
        (&["d", "--flag", "s"], Some("d"), Some("s")),
        (&["--", "-", "--flag"], None, Some("--flag")),
        (&["d", "--names=n", "-"], Some("d"), None),
    ] {
        let arguments = read_for(Files::DeckAndState, words).expect("arguments");
        assert_eq!(arguments.deck(), deck.map(OsStr::new));
        assert_eq!(arguments.state(), state.map(OsStr::new));
    }
}

#[test]
fn what_is_wrong_with_two_files_is_told() {
    let both = "a state is tried with its deck, and both are named: gorvask try DECK STATE";
    for (words, told) in [
        (&[][..], both),
        (&["d"], both),
        (&["-"], both),
        (
            &["-", "--", "-"],
            "the deck and the state cannot both be on standard input",
        ),
        (
            &["d", "s", "t"],
            "one deck and one state at a time, and not t too",
        ),
        (
            &[""],
            "the deck's name is empty: name a file, or take - for standard input",
        ),
        (
            &["d", ""],
            "the state's name is empty: name a file, or take - for standard input",
        ),
        (
            &["d", "s", "-x"],
            "there is no option -x (known here: --names, --flag); a file of that name is given behind --",
        ),
    ] {
        let read = read_for(Files::DeckAndState, words);
        assert_eq!(read.map(|_| ()), Err(told.to_owned()));
    }
}

#[test]
fn a_deck_or_none() {
    for (words, deck) in [
        (&[][..], None),
        (&["--flag"], None),
        (&["d", "--flag"], Some("d")),
        (&["--", "--flag"], Some("--flag")),
    ] {
        let arguments = read_for(Files::DeckOrNone, words).expect("arguments");
        assert_eq!(arguments.deck(), deck.map(OsStr::new));
    }
    for (words, told) in [
        (
            &[""][..],
            "the deck's name is empty: name a file, or leave it out",
        ),
        (
            &["--flag", "-"],
            "the deck cannot be on standard input, where the commands are",
        ),
        (&["-", "d"], "one deck at a time, and not both - and d"),
        (
            &["-x"],
            "there is no option -x (known here: --names, --flag); a deck of that name is given behind --",
        ),
    ] {
        let read = read_for(Files::DeckOrNone, words);
        assert_eq!(read.map(|_| ()), Err(told.to_owned()));
    }
}
