use std::fmt::Write;

use super::{Names, NamesError};
use crate::header::Header;

const HEADER: Header = Header {
    classes: 12,
    individuals: 2,
    roles: 6,
    options: 3,
};

fn names(text: &str) -> Result<Names, String> {
    text.parse().map_err(|error: NamesError| error.to_string())
}

#[test]
fn names_of_each_sort() {
    let text = "# the junction\nclass 11 Locked\n\n  role\t2  calls-normal\r\nindividual 0 S1\nclass 0 S1\nelement 63 e1\n";
    let names = names(text).expect("names");
    assert_eq!(
        (names.class(11), names.class(0), names.class(1)),
        (Some("Locked"), Some("S1"), None)
    );
    assert_eq!(
        (names.role(2), names.role(11)),
        (Some("calls-normal"), None)
    );
    assert_eq!(
        (names.individual(0), names.individual(1)),
        (Some("S1"), None)
    );
    assert_eq!((names.element(63), names.element(0)), (Some("e1"), None));
    assert_eq!(names.fit(HEADER), Ok(()));
}

/// Texts that are no names, and what is told of them.
const BAD: &[(&str, &str)] = &[
    (
        "class 1 A\nclass 2\n",
        "line 2: a line has three words, as in 'class 11 Locked'; this one has 2",
    ),
    (
        "class 1 my class",
        "line 1: a line has three words, as in 'class 11 Locked'; this one has 4",
    ),
    (
        "#\n\nclas 1 A",
        "line 3: a line begins with class, individual, role or element, and not with \"clas\"",
    ),
    (
        "class one A",
        "line 1: the second word is a number, and \"one\" is none",
    ),
    (
        "class -1 A",
        "line 1: the second word is a number, and \"-1\" is none",
    ),
    (
        "class +1 A",
        "line 1: the second word is a number, and \"+1\" is none",
    ),
    (
        "class 4294967296 A",
        "line 1: the second word is a number, and \"4294967296\" is none",
    ),
    (
        "role 1 a.b",
        "line 1: the name \"a.b\" has '.', a sign that clauses are written with",
    ),
    (
        "class 1 A∨B",
        "line 1: the name \"A∨B\" has '∨', a sign that clauses are written with",
    ),
    (
        "class 1 A\u{7}",
        "line 1: the name \"A\\u{7}\" has '\\u{7}', a sign that clauses are written with",
    ),
    (
        "class 1 Q0",
        "line 1: Q0 is kept for classes without a name",
    ),
    (
        "class 1 A1",
        "line 1: A1 is kept for classes without a name",
    ),
    ("role 1 r20", "line 1: r20 is kept for roles without a name"),
    (
        "individual 1 i2",
        "line 1: i2 is kept for individuals without a name",
    ),
    (
        "class 1 A\nclass 1 B",
        "line 2: class 1 has a name already, by line 1",
    ),
    (
        "element 1 P1\nelement 2 P1",
        "line 2: P1 is the name of element 1 already, by line 1",
    ),
    (
        "class 1 A\n\nclass 7 A",
        "line 3: A is the name of class 1 already, by line 1",
    ),
];

#[test]
fn a_bad_line_is_told_with_its_number() {
    for &(text, error) in BAD {
        assert_eq!(names(text), Err(error.to_owned()));
    }
}

#[test]
fn a_long_file() {
    let mut text = String::new();
    for id in 0..60_000 {
        writeln!(text, "class {id} Class-{id}").expect("a text takes all");
    }
    let all = names(&text).expect("names");
    assert_eq!(all.class(59_999), Some("Class-59999"));
    text.push_str("class 60000 Class-59998\n");
    assert_eq!(
        names(&text),
        Err("line 60001: Class-59998 is the name of class 59998 already, by line 59999".to_owned())
    );
}

#[test]
fn forms_of_another_sort_are_names() {
    let names = names(
        "class 0 r1\nclass 1 i1\nclass 2 Q\nclass 3 A1b\nrole 0 A1\nrole 1 Q1\nindividual 0 r1",
    );
    assert!(names.is_ok());
}

#[test]
fn what_the_deck_has_not_is_told() {
    for (text, error) in [
        (
            "class 11 A\nclass 12 B\nclass 40 C",
            "line 2: the deck has no class 12: its header counts 12 classes, from 0 on",
        ),
        (
            "role 6 a\nclass 12 B",
            "line 1: the deck has no role 6: its header counts 6 roles, from 0 on",
        ),
        (
            "individual 2 a",
            "line 1: the deck has no individual 2: its header counts 2 individuals, from 0 on",
        ),
        (
            "element 63 a\nelement 64 b",
            "line 2: no state has an element 64: it has at most 64 elements, from 0 on",
        ),
    ] {
        let fit = names(text).expect("names").fit(HEADER);
        assert_eq!(
            fit.map_err(|error| (error.line(), error.to_string())),
            Err((error[5..6].parse().expect("a number"), error.to_owned()))
        );
    }
}
