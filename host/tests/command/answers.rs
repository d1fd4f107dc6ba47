//! What the subcommands print of accepted decks.

use crate::common::{equivalent, worked};
use crate::process::{Ran, read, read_text, run, run_on};

const JUNCTION: &str = "examples/junction.deck";
const WHOLE: &str = "accepted, promised whole: no axiom of the kinds 21 to 31 is lost or weakened";

#[test]
fn the_listing_of_the_junction_is_the_stored_one() {
    for words in [
        &["list", JUNCTION][..],
        &["list", "--lister-tables", JUNCTION],
    ] {
        let ran = run(words);
        assert_eq!(ran.out, read_text("examples/junction.listing"));
        assert_eq!(ran.err, format!("gorvask: {JUNCTION}: {WHOLE}\n"));
        assert_eq!(ran.status, Some(0));
    }
}

#[test]
fn the_worked_listing_of_document_01() {
    let expected = concat!(
        "         41          0          1          1\n",
        "         42          1          0          1          0          0          0\n",
        "         42          3          0          2          0          0          0\n",
        "         43          1          1          0          0          1          0          0          0          0          6\n",
    );
    for words in [&["list"][..], &["list", "-"], &["list", "/dev/stdin"]] {
        let ran = run_on(words, &worked());
        assert_eq!((ran.status, ran.out.as_str()), (Some(0), expected));
    }
}

#[test]
fn a_text_with_company_deferrals_and_numbers() {
    let ran = run(&["text", "host/examples/points.deck"]);
    assert_eq!(ran.out, read_text("host/examples/points.text"));
    assert_eq!(
        ran.err,
        "gorvask: host/examples/points.deck: accepted, not promised whole: line 25: the chain has not two parts and gave no \
         rule (role-chain-len-ne-2)\n"
    );
    assert_eq!(ran.status, Some(3));
}

#[test]
fn a_fresh_class_of_anything_has_no_company() {
    // A0 below Some r0 Top.
    let deck = concat!(
        "          0          1          0          1          3\n",
        "          3          0\n",
        "          1\n",
        "          9          0          1\n",
        "         21          0          2\n",
    );
    let ran = run_on(&["text"], deck.as_bytes());
    assert_eq!(ran.status, Some(0));
    let mut lines = ran.out.lines();
    assert_eq!(lines.next(), Some("    0  A0(x) → ∃r0.Q0(x)"));
    assert!(
        lines
            .next()
            .is_some_and(|line| line.starts_with("clauses 1: "))
    );
}

#[test]
fn a_check_has_verdict_and_numbers() {
    let whole = Ran {
        status: Some(0),
        out: "accepted, promised whole\n\
              clauses 41: horn 38, disjunctive 3, without a head 14, with Exists in the head 3\n\
              deferred 0, split 0, left wide 0, fresh classes 1, visits 120\n"
            .to_owned(),
        err: format!("gorvask: {JUNCTION}: {WHOLE}\n"),
    };
    assert_eq!(run(&["check", JUNCTION]), whole);
    let ran = run(&["check", "host/examples/points.deck"]);
    assert_eq!(
        ran.out,
        "accepted, not promised whole\n\
         clauses 11: horn 10, disjunctive 1, without a head 4, with Exists in the head 1\n\
         deferred 1, split 0, left wide 0, fresh classes 2, visits 53\n"
    );
    assert_eq!(ran.status, Some(3));
}

#[test]
fn standard_input_is_the_file() {
    let deck = read(JUNCTION);
    for subcommand in ["list", "text", "check"] {
        let file = run(&[subcommand, JUNCTION]);
        let input = run_on(&[subcommand], &deck);
        assert_eq!((file.status, &file.out), (input.status, &input.out));
        assert_eq!(input.err, format!("gorvask: standard input: {WHOLE}\n"));
    }
}

#[test]
fn tables_grow_unless_they_are_the_listers() {
    let deck = equivalent(128, 1);
    let grown = run_on(&["list"], &deck);
    assert_eq!(grown.status, Some(0));
    let rows = |kind: &str| {
        grown
            .out
            .lines()
            .filter(|row| row.starts_with(kind))
            .count()
    };
    let [clauses, atoms] = ["         41", "         42"].map(rows);
    assert_eq!((clauses, atoms), (128 * 127, 2 * 128 * 127));
    let fixed = run_on(&["list", "--lister-tables"], &deck);
    assert_eq!(fixed.out, "         49         12        130\n");
    assert_eq!(fixed.status, Some(4));
    assert!(
        fixed
            .err
            .contains("the lister's tables were lent: without --lister-tables they grow")
    );
}

#[test]
fn a_deck_of_no_axioms() {
    let deck = b"          0          0          0          0          0\n";
    assert_eq!(
        run_on(&["list"], deck).out,
        "         43          0          0          0          0          0          0          0          0          0          0\n"
    );
    assert!(run_on(&["text"], deck).out.starts_with("clauses 0: "));
}
