//! What is said of refused decks.

use gorvask::diagnosis::diagnose;

use crate::common::{equivalent, refused};
use crate::process::{Ran, run_on};

#[test]
fn every_refusal_has_its_row_its_words_and_its_status() {
    for (number, line, deck) in refused() {
        let at = line.unwrap_or(0);
        let list = run_on(&["list"], &deck);
        assert_eq!(list.out, format!("{:11}{number:11}{at:11}\n", 49));
        let check = run_on(&["check"], &deck);
        assert_eq!(
            check.out,
            format!("refused by number {number}, line {at}\n")
        );
        let text = run_on(&["text"], &deck);
        assert_eq!(text.out, "");
        for ran in [&list, &check, &text] {
            assert_eq!(ran.status, Some(4));
            assert_eq!(ran.err, list.err);
        }
        let place = line.map_or(String::new(), |line| format!(", line {line}"));
        let first = format!("gorvask: standard input: refused by number {number}{place}: ");
        assert!(list.err.starts_with(&first), "{}", list.err);
        assert!(list.err.contains("\ngorvask: to do: "));
        assert!(list.err.lines().all(|line| line.starts_with("gorvask: ")));
    }
}

#[test]
fn a_refusal_in_full() {
    let deck = concat!(
        "          0          3          0          1          3\n",
        "          3          0\n",
        "          3          1\n",
        "          3          0\n",
    );
    let expected = Ran {
        status: Some(4),
        out: String::new(),
        err: "gorvask: standard input: refused by number 8, line 4: the concept stands on an earlier line already\n\
              gorvask: to do: use that line's concept, and take this line out\n\
              gorvask: line 4 is:           3          0\n"
            .to_owned(),
    };
    let ran = run_on(&["text"], deck.as_bytes());
    // A cause may follow.
    assert_eq!((ran.status, &ran.out), (expected.status, &expected.out));
    assert!(ran.err.starts_with(&expected.err), "{}", ran.err);
}

#[test]
fn the_lines_text_can_be_read() {
    for (deck, shown) in [
        (&b""[..], "the deck is empty"),
        (b"\n", "line 1 is empty"),
        (
            b"          0          3\r\n",
            "line 1 is:           0          3\\r",
        ),
        (
            b"\xef\xbb\xbf          0\n",
            "line 1 is: \\xef\\xbb\\xbf          0",
        ),
        (b"\t0\t\x1b[31m\n", "line 1 is: \\t0\\t\\x1b[31m"),
        (b"          0", "line 1 is:           0"),
    ] {
        let ran = run_on(&["check"], deck);
        assert_eq!(ran.status, Some(4));
        assert!(
            ran.err.contains(&format!("gorvask: {shown}\n")),
            "{}",
            ran.err
        );
    }
    let long = run_on(&["check"], &[b'1'; 5_000]);
    assert!(
        long.err
            .contains("gorvask: line 1 has 5000 bytes and begins: 111")
    );
    assert!(long.err.lines().all(|line| line.len() < 600));
}

#[test]
fn past_the_largest_tables() {
    let ran = run_on(&["list"], &equivalent(128, 5));
    assert_eq!(
        (ran.status, ran.out.as_str()),
        (Some(4), "         49         12        134\n")
    );
    let words = "gorvask: the largest tables were lent: 65,536 clauses, 262,144 atoms and 65,536 deferrals\n";
    assert!(ran.err.contains(words));
}

#[test]
fn a_deck_without_end() {
    let row = "         49          2          0\n";
    let long = vec![b' '; 70_000];
    for ran in [
        run_on(&["list"], &long),
        run_on(&["list", "/dev/zero"], b""),
    ] {
        assert_eq!((ran.status, ran.out.as_str()), (Some(4), row));
        assert!(
            ran.err
                .contains(": refused by number 2: the deck has over 65,536 bytes\n")
        );
    }
}

/// Where the diagnosis has the library's number and line its cause comes last, with its column; otherwise there is none.
#[test]
fn a_cause_where_the_diagnosis_knows_it() {
    let mut decks = refused();
    let header = "          0          3          0          1          3";
    decks.push((2, Some(1), format!("{header}\r\n").into_bytes()));
    decks.push((
        3,
        Some(2),
        format!("{header}\n         21          0\n").into_bytes(),
    ));
    for (number, line, deck) in decks {
        let found = diagnose(&deck).filter(|found| Some(found.line) == line);
        let cause = found.filter(|found| found.number == number).map(|found| {
            let column = found
                .column
                .map_or(String::new(), |column| format!("column {column}: "));
            format!(
                "gorvask: cause, by a reading that is not proved: {column}{}",
                found.cause
            )
        });
        let err = run_on(&["check"], &deck).err;
        let told = err
            .lines()
            .last()
            .filter(|line| line.starts_with("gorvask: cause"));
        assert_eq!(told, cause.as_deref(), "{number}");
    }
}
