//! The comparison of a program with the original sees a difference, and a program that does not run.

use std::io;

use oracle::sampling::{Drawn, Original, compare};

fn draw(seed: u64) -> Drawn {
    Drawn {
        kind: "Small".into(),
        input: seed.to_string().into_bytes(),
        original: Original {
            text: seed.to_string().into_bytes(),
            is_accepted: true,
            answer: vec!["accepted".into()],
            notes: Vec::new(),
        },
    }
}

fn compared(run: impl Fn(&[u8]) -> io::Result<Vec<u8>>) -> Result<(), String> {
    compare(1, 9, draw, run).map_err(|error| error.to_string())
}

#[test]
fn differences_are_seen() {
    assert_eq!(compared(|input| Ok(input.to_vec())), Ok(()));
    let errs_once = |input: &[u8]| Ok(if input == b"9" { b"8" } else { input }.to_vec());
    let error = compared(errs_once).unwrap_err();
    assert_eq!(error, "it differs from the original");
    let ends_early = |input: &[u8]| match input {
        b"5" => Err(io::Error::other("it ended early")),
        _ => Ok(input.to_vec()),
    };
    let error = compared(ends_early).unwrap_err();
    assert_eq!(error, "seed 5 (Small): it ended early");
}
