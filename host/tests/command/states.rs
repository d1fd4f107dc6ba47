//! `gorvask try` where there is none: what is refused, and what cannot be read.

use gorvask::diagnosis::state::{Counts, diagnose};

use crate::common::{deck, refused, row, wide};
use crate::process::{Ran, Scratch, read, run, run_on};

const JUNCTION: &str = "examples/junction.deck";
const HELD: &str = "examples/junction.state";

/// The deck's counts, and its one fresh class.
const COUNTS: Counts = Counts {
    classes: 12,
    individuals: 2,
    roles: 6,
    fresh: 1,
};

/// Both tests of the junction and a state, in words and as rows.
fn tried(state: &[u8]) -> [Ran; 2] {
    let words = ["try", JUNCTION, "-"];
    [&[][..], &["--rows"]].map(|options| run_on(&[&words[..], options].concat(), state))
}

/// The state that holds, with a line, from 1, in place of another; with none, the line is taken out.
fn with_line(line: usize, numbers: Option<&[u32]>) -> Vec<u8> {
    let text = String::from_utf8(read(HELD)).expect("a text");
    let mut lines: Vec<String> = text.lines().map(|line| format!("{line}\n")).collect();
    match numbers {
        Some(numbers) => lines[line - 1] = row(numbers),
        None => drop(lines.remove(line - 1)),
    }
    lines.concat().into_bytes()
}

/// A line of the state that holds, what stands in its place, and the line and the cause of the refusal.
const BAD: &[(usize, Option<&[u32]>, u32, &str)] = &[
    (
        1,
        Some(&[50, 65]),
        1,
        "column 21: 65 elements; a state has 1 to 64",
    ),
    (
        1,
        Some(&[50, 6]),
        4,
        "column 44: there is no element 6; the state has 6 (0 to 5)",
    ),
    (
        3,
        Some(&[51, 0]),
        3,
        "column 22: a second line of class 0; each has one at most",
    ),
    (
        3,
        Some(&[54, 0]),
        3,
        "column 10: there is no kind 54 here; the kinds are 51 (class), 52 (role) and 53 (individual)",
    ),
    (
        12,
        Some(&[51, 13]),
        12,
        "column 21: class 13 is that of individual 1 and has no line: it holds the element of the individual's line 53",
    ),
    (
        12,
        Some(&[51, 15]),
        12,
        "column 21: there is no class 15; the deck's header counts 12 classes (0 to 11), and its run has 1 fresh one (14)",
    ),
    (
        18,
        Some(&[52, 10, 0, 1]),
        18,
        "column 21: there is no role 10; the deck's header counts 6 roles (0 to 5), named here by id and not by code",
    ),
    (
        13,
        Some(&[52, 0, 3, 1, 2, 0]),
        13,
        "column 55: the pair 2 0 after 3 1; pairs rise by their first element, then by their second, each once",
    ),
    (
        19,
        None,
        0,
        "individual 0 has no line 53; each individual has one",
    ),
    (
        20,
        None,
        0,
        "individual 1 has no line 53; each individual has one",
    ),
];

/// A bad state, its line, and the cause.
fn bad_states() -> Vec<(Vec<u8>, u32, &'static str)> {
    let with_line = |&(place, numbers, line, cause)| (with_line(place, numbers), line, cause);
    let mut states: Vec<_> = BAD.iter().map(with_line).collect();
    let empty = "the state is empty; the first line is 50 and the number of elements, 1 to 64";
    states.push((Vec::new(), 1, empty));
    let mut cut = read(HELD);
    cut.pop();
    let without =
        "column 34: the state ends without a line feed; each line ends with one, the last one too";
    states.push((cut, 20, without));
    states
}

#[test]
fn a_bad_state_has_its_line_and_its_cause() {
    for (state, line, cause) in bad_states() {
        let [words, rows] = tried(&state);
        assert_eq!((words.status, words.out.as_str()), (Some(4), ""));
        assert_eq!((rows.status, rows.out), (Some(4), row(&[49, 13, line])));
        assert_eq!(words.err, rows.err);
        let place = match line {
            0 => String::new(),
            _ => format!(", line {line}"),
        };
        let first = format!("gorvask: standard input: refused by number 13{place}: ");
        assert!(words.err.starts_with(&first), "{}", words.err);
        let last = format!("gorvask: cause, by a reading that is not proved: {cause}\n");
        assert!(words.err.ends_with(&last), "{}", words.err);
        let told = diagnose(COUNTS, &state).expect("a diagnosis");
        assert_eq!((told.number, told.line), (13, line));
    }
}

#[test]
fn a_refused_state_in_full() {
    let [words, _] = tried(&with_line(3, Some(&[51, 1, 4, 4])));
    assert_eq!(
        words.err,
        "gorvask: standard input: refused by number 13, line 3: the state's line breaks the columns, or a rule of states: first \
         50 and 1 to 64 elements; then 51, class and elements, 52, role id and pairs, 53, individual and element; by kind, then \
         by id, each id once; elements are below the count, elements and pairs rise; 51 takes declared and fresh classes. An \
         empty state is refused here at line 1\n\
         gorvask: to do: correct the state's line, or give the individual one\n\
         gorvask: line 3 is:          51          1          4          4\n\
         gorvask: cause, by a reading that is not proved: column 44: element 4 stands twice; elements rise, each once\n"
    );
}

/// The axioms have their verdict; the clause that is too wide is shown.
#[test]
fn a_wide_clause_refuses_the_clause_test_alone() {
    let file = Scratch::new("wide.deck", &wide());
    let state = deck(&[vec![50, 1]]);
    let words = |options: &[&'static str]| [&["try", file.path(), "-"], options].concat();
    let axioms = run_on(&words(&["--axioms"]), &state);
    assert_eq!(
        (axioms.status, axioms.out.as_str()),
        (Some(0), "axioms: all hold\n")
    );
    let both = run_on(&words(&["--rows"]), &state);
    assert_eq!(both.out, row(&[48, 0, 0]) + &row(&[49, 14, 0]));
    assert_eq!(both.status, Some(4));
    let told = format!(
        "gorvask: {}: refused by number 14: a clause has over four distinct variables. The state is laid out well, and the \
         axioms can be tested in it\n\
         gorvask: to do: test the axioms alone; or give a part of the rule a class of its own\n\
         gorvask: the first such clause is 0, with 5 variables: r0(x,y1), r0(y1,y2), r0(y2,y3), r0(y3,y4), A0(y4) → A0(x)\n",
        file.path()
    );
    assert_eq!(both.err, told);
    let clauses = run_on(&words(&["--clauses"]), &state);
    assert_eq!((clauses.status, clauses.out.as_str()), (Some(4), ""));
    assert_eq!(clauses.err, told);
    // 13 comes before.
    let bad = run_on(&words(&["--rows"]), b"\n");
    assert_eq!(bad.out, row(&[49, 13, 1]));
}

/// Whatever the state is; printed once.
#[test]
fn a_refused_deck_is_told_as_ever() {
    for (number, line, deck) in refused() {
        let listed = run_on(&["list"], &deck);
        for options in [&["--rows"][..], &["--rows", "--clauses"]] {
            let tried = run_on(&[&["try", "-", "/dev/null"], options].concat(), &deck);
            assert_eq!(tried, listed, "{number} {line:?}");
        }
    }
}

#[test]
fn what_cannot_be_read() {
    let hint = "gorvask: 'gorvask --help' says how it is used\n";
    for (words, told) in [
        (
            ["try", JUNCTION, "missing.state"],
            "gorvask: there is no file missing.state\n".to_owned(),
        ),
        (
            ["try", "missing.deck", "missing.state"],
            "gorvask: there is no file missing.deck\n".to_owned(),
        ),
        (
            ["try", JUNCTION, "examples"],
            "gorvask: examples is a directory, and no state\n".to_owned(),
        ),
        (
            ["try", JUNCTION, ""],
            format!(
                "gorvask: the state's name is empty: name a file, or take - for standard input\n{hint}"
            ),
        ),
    ] {
        let ran = run(&words);
        assert_eq!((ran.status, ran.out.as_str()), (Some(2), ""));
        assert_eq!(ran.err, told);
    }
}

#[test]
fn names_that_do_not_fit() {
    for (place, (names, told)) in [
        (
            "element 64 P1\n",
            "line 1: no state has an element 64: it has at most 64 elements, from 0 on",
        ),
        (
            "element 6 P1\nclass 12 A\n",
            "line 2: the deck has no class 12: its header counts 12 classes, from 0 on",
        ),
    ]
    .into_iter()
    .enumerate()
    {
        let file = Scratch::new(&format!("unfit{place}.names"), names.as_bytes());
        let words = ["try", JUNCTION, HELD, "--names", file.path()];
        let ran = run(&words);
        assert_eq!((ran.status, ran.out.as_str()), (Some(2), ""));
        assert_eq!(ran.err, format!("gorvask: {}: {told}\n", file.path()));
        // A refusal comes before.
        let words = ["try", JUNCTION, "/dev/null", "--names", file.path()];
        assert_eq!(run(&words).status, Some(4));
    }
}
