//! Names in clauses.

use crate::process::{Scratch, run, run_on};

/// A0 below at most 1 r1⁻ (A1 and {i0}).
const DECK: &str = concat!(
    "          0          2          1          2          3\n",
    "          3          0\n",
    "          3          1\n",
    "          4          0\n",
    "          7          1          2\n",
    "         12          1          3          3\n",
    "         21          0          4\n",
);

/// The clauses without their company.
fn clauses(out: &str) -> Vec<&str> {
    let is_clause = |line: &&str| line.starts_with("    ") && !line.contains(" with ");
    out.lines().filter(is_clause).collect()
}

#[test]
fn names_are_put_in_and_fresh_classes_keep_theirs() {
    let names = "# names\n\nindividual 0 S1\nrole 1 leads\nclass 0 Signal\n";
    let file = Scratch::new("some.names", names.as_bytes());
    let ran = run_on(&["text", "--names", file.path()], DECK.as_bytes());
    assert_eq!(
        clauses(&ran.out),
        [
            "    0  Q0(x) → A1(x)",
            "    1  Q0(x) → {S1}(x)",
            "    2  Signal(x) → ≤1 leads⁻.Q0(x)",
        ]
    );
    assert_eq!(ran.status, Some(3));
}

#[test]
fn the_junction_in_words() {
    let ran = run(&[
        "text",
        "--names=examples/junction.names",
        "examples/junction.deck",
    ]);
    assert_eq!(ran.status, Some(0));
    // As docs/JUNCTION.md has them.
    for clause in [
        "    3  Signal(x) → Proceed(x) ∨ Stop(x)",
        "   27  opposes(x,x) → ⊥",
        "   30  Route(x) → ≤1 entry.⊤(x)",
        "   33  Locked(x), calls-normal(x,y1) → Normal(y1)",
        "   37  Proceed(x) → ∃entry⁻.Q0(x)",
        "       with 35: Q0(x) → Locked(x)",
        "       with 36: Q0(x), through(x,y1) → Clear(y1)",
        "   38  Locked(x), entry(x,y1), opposes(y1,y2), entry⁻(y2,y3), Locked(y3) → ⊥",
        "   40  {S1}(x) → ∃opposes.{S2}(x)",
    ] {
        assert!(ran.out.lines().any(|line| line == clause), "{clause}");
    }
}

#[test]
fn a_bad_names_file_is_told_with_its_line() {
    for (place, (bytes, told)) in [
        (
            &b"class 0 Signal\nclass 1\n"[..],
            "line 2: a line has three words, as in 'class 11 Locked'; this one has 2",
        ),
        (
            b"class 0 Signal\nclass 2 Points\n",
            "line 2: the deck has no class 2: its header counts 2 classes, from 0 on",
        ),
        (
            b"role 2 a\n",
            "line 1: the deck has no role 2: its header counts 2 roles, from 0 on",
        ),
        (
            b"\nclass 0 \xff\n",
            "line 2: a byte is no part of a UTF-8 text",
        ),
    ]
    .into_iter()
    .enumerate()
    {
        let file = Scratch::new(&format!("bad{place}.names"), bytes);
        let ran = run_on(&["text", "--names", file.path()], DECK.as_bytes());
        assert_eq!((ran.status, ran.out.as_str()), (Some(2), ""));
        assert_eq!(ran.err, format!("gorvask: {}: {told}\n", file.path()));
    }
}

#[test]
fn a_names_file_that_cannot_be_read() {
    for (word, told) in [
        ("", "the names file's name is empty"),
        ("examples", "examples is a directory, and no names file"),
        ("missing", "there is no file missing"),
        ("/dev/zero", "/dev/zero: it has over 1048576 bytes"),
    ] {
        let ran = run_on(&["text", "--names", word], DECK.as_bytes());
        assert_eq!((ran.status, ran.out.as_str()), (Some(2), ""));
        assert_eq!(ran.err, format!("gorvask: {told}\n"));
    }
}

#[test]
fn a_mark_of_byte_order_and_other_line_ends() {
    let file = Scratch::new("marked.names", "\u{feff}class 0 Signal\r\n".as_bytes());
    let ran = run_on(&["text", "--names", file.path()], DECK.as_bytes());
    assert!(ran.out.contains("    2  Signal(x) → "));
}

#[test]
fn a_refused_deck_comes_before_names_that_do_not_fit() {
    let file = Scratch::new("beyond.names", b"class 40 A\n");
    let ran = run_on(&["text", "--names", file.path()], b"");
    assert_eq!(ran.status, Some(4));
}
