//! Outputs that cannot be written.

use std::fs::OpenOptions;
use std::io::Read;
use std::process::Stdio;

use crate::common::equivalent;
use crate::process::{Ran, Scratch, command};

fn full() -> Stdio {
    let full = OpenOptions::new().write(true).open("/dev/full");
    Stdio::from(full.expect("/dev/full"))
}

#[test]
fn a_full_output_is_status_1() {
    for words in [
        &["list", "examples/junction.deck"][..],
        &["text", "examples/junction.deck"],
        &["check", "examples/junction.deck"],
        &["list", "/dev/null"],
        &["check", "/dev/null"],
        &["try", "examples/junction.deck", "examples/junction.state"],
        &["try", "--rows", "examples/junction.deck", "/dev/null"],
        &["--help"],
        &["--version"],
    ] {
        let output = command(words).stdout(full()).output().expect("a run");
        let ran = Ran::from(output);
        assert_eq!(ran.status, Some(1), "{words:?}");
        assert!(
            ran.err
                .starts_with("gorvask: the output cannot be written: "),
            "{}",
            ran.err
        );
        assert_eq!(ran.err.lines().count(), 1);
    }
}

#[test]
fn a_promise_that_cannot_be_told_is_status_1() {
    for words in [
        &["list", "examples/junction.deck"][..],
        &["list", "/dev/null"],
        &["try", "examples/junction.deck", "/dev/null"],
    ] {
        let output = command(words).stderr(full()).output().expect("a run");
        assert_eq!(output.status.code(), Some(1));
    }
}

#[test]
fn whoever_closes_a_pipe_is_not_troubled() {
    let deck = Scratch::new("many.deck", &equivalent(128, 1));
    for subcommand in ["list", "text"] {
        let mut child = command(&[subcommand, deck.path()]).spawn().expect("a run");
        let mut some = [0; 100];
        let mut out = child.stdout.take().expect("its standard output");
        out.read_exact(&mut some).expect("the first bytes");
        drop(out);
        let ran = Ran::from(child.wait_with_output().expect("a run"));
        assert_eq!((ran.status, ran.err.as_str()), (Some(1), ""));
    }
}
