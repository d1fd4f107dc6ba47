//! The reading against decks by hand: every sentence of refusals 2 to 9.

use deck::write::row;
use deck::{Axiom, Concept, Deck, Refusal, read};

/// The bytes of lines such as `0 3 0 1 3; 3 0`.
fn bytes(lines: &str) -> Vec<u8> {
    let mut out = Vec::new();
    for line in lines.split(';') {
        let numbers: Vec<u32> = line
            .split_whitespace()
            .map(|number| number.parse().expect("a number"))
            .collect();
        row(&mut out, &numbers);
    }
    out
}

fn refusal(bytes: &[u8]) -> Option<(u32, u32)> {
    read(bytes)
        .err()
        .map(|Refusal { number, line }| (number, line))
}

fn check(table: &[(&str, Option<(u32, u32)>)]) {
    for &(lines, expected) in table {
        assert_eq!(refusal(&bytes(lines)), expected, "{lines}");
    }
}

const ACCEPTED: Option<(u32, u32)> = None;

const HEADER: &[u8] = b"          0          1          1          1          0\n";

/// Many numbers with spaces between them.
fn spaced(numbers: impl IntoIterator<Item = u32>) -> String {
    let texts: Vec<String> = numbers.into_iter().map(|n| n.to_string()).collect();
    texts.join(" ")
}

/// Lines of one kind, with the numbers from 0.
fn repeated(kind: &str, lines: u32) -> String {
    let lines: Vec<String> = (0..lines).map(|n| format!("; {kind} {n}")).collect();
    lines.concat()
}

#[test]
fn the_example_of_document_01() {
    let text = b"          0          3          0          1          3
          3          0
          3          1
          9          0          1
         21          0          2
";
    let expected = Deck {
        classes: 3,
        individuals: 0,
        roles: 1,
        options: 3,
        keys: vec![],
        concepts: vec![Concept::Atomic(0), Concept::Atomic(1), Concept::Some(0, 1)],
        axioms: vec![Axiom::SubClassOf(0, 2)],
    };
    assert_eq!(read(text), Ok(expected));
}

#[test]
fn every_kind_of_concept_is_read() {
    let lines = "0 2 1 2 1; 14 1; 14 0; 14 1; 1; 2; 3 1; 4 0; 5 3; 6 2; 7 2 3; 8 2 3 5; 9 0 1; 10 1 6; 11 2 0 0; 12 0 3 7";
    let expected = Deck {
        classes: 2,
        individuals: 1,
        roles: 2,
        options: 1,
        keys: vec![1, 0, 1],
        concepts: vec![
            Concept::Top,
            Concept::Bot,
            Concept::Atomic(1),
            Concept::Nominal(0),
            Concept::SelfRestriction(3),
            Concept::Not(2),
            Concept::And(vec![2, 3]),
            Concept::Or(vec![2, 3, 5]),
            Concept::Some(0, 1),
            Concept::All(1, 6),
            Concept::Min(2, 0, 0),
            Concept::Max(0, 3, 7),
        ],
        axioms: vec![],
    };
    assert_eq!(read(&bytes(lines)), Ok(expected));
}

#[test]
fn every_kind_of_axiom_is_read() {
    let lines = "0 2 1 2 0; 1; 2; 3 1; 3 0; 21 0 2; 22 0 0 1; 23 2; 24 1 2 3; 25 0 1; 26 3 2; 27 0 1 2 3; 28 0; 29 1; \
         30 2; 31 0 0 1; 32 0 2; 33 1 3; 34 2; 35 3; 36 3 0";
    let expected = vec![
        Axiom::SubClassOf(0, 2),
        Axiom::EquivalentClasses(vec![0, 0, 1]),
        Axiom::DisjointClasses(vec![2]),
        Axiom::DisjointUnion(1, vec![2, 3]),
        Axiom::Domain(0, 1),
        Axiom::Range(3, 2),
        Axiom::Chain(0, vec![1, 2, 3]),
        Axiom::Transitive(0),
        Axiom::Irreflexive(1),
        Axiom::Asymmetric(2),
        Axiom::DisjointRoles(vec![0, 0, 1]),
        Axiom::Inverse(0, 2),
        Axiom::RoleInclusion(1, 3),
        Axiom::EquivalentRoles(vec![2]),
        Axiom::Reflexive(3),
        Axiom::ClassAssertion(3, 0),
    ];
    let deck = read(&bytes(lines)).expect("a sound deck");
    assert_eq!(deck.axioms, expected);
    assert_eq!(deck.axiom_line(0), 6);
}

#[test]
fn sound_decks() {
    check(&[
        ("0 0 0 0 0", ACCEPTED),
        ("0 4096 4096 1024 7", ACCEPTED),
        ("0 1 0 0 0; 14 0; 14 0; 14 0", ACCEPTED),
        ("0 0 0 0 0; 22; 23; 31; 34", ACCEPTED),
        ("0 1 0 1 0; 24 0; 27 1", ACCEPTED),
        ("0 0 0 1 0; 28 0; 28 0; 32 0 0; 32 0 0", ACCEPTED),
        ("0 0 0 0 0; 1; 2; 21 0 1", ACCEPTED),
        ("0 4096 4096 1024 0; 3 4095; 4 4095; 5 2047", ACCEPTED),
        ("0 1 0 1 0; 3 0; 9 0 0; 10 0 0; 9 1 0", ACCEPTED),
        ("0 1 0 1 0; 3 0; 11 1 0 0; 11 2 0 0; 12 1 0 0", ACCEPTED),
        ("0 1 1 0 0; 3 0; 4 0; 7 0 1; 8 0 1; 8 0 2; 7 0 3", ACCEPTED),
        ("0 1 0 0 0; 1; 6 0; 6 1; 7 1 2", ACCEPTED),
    ]);
}

#[test]
fn bounds_of_min_and_max() {
    check(&[
        ("0 0 0 1 0; 1; 11 4294967295 0 0", ACCEPTED),
        ("0 0 0 1 0; 1; 12 4294967294 0 0", ACCEPTED),
        ("0 0 0 1 0; 1; 12 4294967295 0 0", Some((9, 3))),
        ("0 0 0 1 0; 1; 12 4294967295 2 0", Some((5, 3))),
        ("0 0 0 1 0; 1; 12 4294967295 0 1", Some((6, 3))),
        // Min 0 is a record of its own, and no Top.
        ("0 1 0 1 0; 1; 11 0 0 0; 3 0; 7 1 2; 8 1 2", ACCEPTED),
        ("0 1 0 1 0; 1; 11 0 0 0; 11 0 1 0; 7 1 2", ACCEPTED),
        ("0 0 0 1 0; 1; 11 0 0 0; 11 0 0 0", Some((8, 4))),
    ]);
}

#[test]
fn layout_of_a_field() {
    let fields: [&[u8]; 22] = [
        b" 4294967296",
        b" 9999999999",
        b"44294967295",
        b"00000000000",
        b"         00",
        b"         01",
        b"           ",
        b"         0 ",
        b"0          ",
        b"         -0",
        b"         +0",
        b"        1 0",
        b"          a",
        b"         0x",
        b"        0.0",
        b"\t         0",
        b"         \t0",
        b"          \r",
        b"          \0",
        b"          \xff",
        b"         0",
        b"           0",
    ];
    for field in fields {
        let deck = [HEADER, b"         14", field, b"\n"].concat();
        assert_eq!(refusal(&deck), Some((2, 2)), "{field:?}");
    }
    let sound = [HEADER, b"         14          0\n"].concat();
    assert_eq!(refusal(&sound), ACCEPTED);
}

#[test]
fn layout_of_a_line() {
    let decks: [(&[u8], u32); 9] = [
        (b"\n", 1),
        (b" ", 1),
        (
            b"          0          1          1          1          0",
            1,
        ),
        (
            b"          0          1          1          1          0\r\n",
            1,
        ),
        (
            b"          0          1          1          1          0 \n",
            1,
        ),
        (b" \n", 1),
        (b"\r\n", 1),
        (b"0 1 1 1 0\n", 1),
        (
            b"\n          0          1          1          1          0\n",
            1,
        ),
    ];
    for (deck, line) in decks {
        assert_eq!(refusal(deck), Some((2, line)), "{deck:?}");
    }
    assert_eq!(refusal(&[HEADER, b"\n"].concat()), Some((2, 2)));
    assert_eq!(
        refusal(&[HEADER, b"         14          0"].concat()),
        Some((2, 2))
    );
    assert_eq!(
        refusal(&[HEADER, b"         14          0\n\n"].concat()),
        Some((2, 3))
    );
}

#[test]
fn layout_comes_first_on_a_line_and_the_first_bad_line_counts() {
    let unknown_kind = b"         99\n";
    let broken = b"         99 \n";
    let open_end = b"          3          0";
    assert_eq!(refusal(&[HEADER, unknown_kind].concat()), Some((3, 2)));
    assert_eq!(refusal(&[HEADER, broken].concat()), Some((2, 2)));
    assert_eq!(
        refusal(&[HEADER, &unknown_kind[..], open_end].concat()),
        Some((3, 2))
    );
    assert_eq!(
        refusal(&[HEADER, &unknown_kind[..], broken].concat()),
        Some((3, 2))
    );
    check(&[
        ("0 1 0 1 0; 12 4294967295 0 0; 99", Some((6, 2))),
        (
            "0 1 0 1 0; 3 0; 12 4294967295 0 0; 3 0; 3 1; 99",
            Some((9, 3)),
        ),
        ("0 1 0 1 0; 3 0; 3 0; 12 4294967295 0 0", Some((8, 3))),
        ("0 5000 0 0 0; 99", Some((4, 1))),
    ]);
}

#[test]
fn bytes_of_a_deck() {
    // 65,536 = 56 + 46 × 1,420 + 4 × 23 + 2 × 34.
    let list = format!("; 34 {}", spaced([0; 128]));
    let full = bytes(&format!(
        "0 1 0 1 0{}{}{}",
        list.repeat(46),
        "; 28 0".repeat(4),
        "; 32 0 0".repeat(2)
    ));
    assert_eq!(full.len(), 65_536);
    assert_eq!(refusal(&full), ACCEPTED);
    let over = [&full[..], b"\n"].concat();
    assert_eq!(refusal(&over), Some((2, 0)));
    assert_eq!(refusal(&b"\n".repeat(65_537)), Some((2, 0)));
    assert_eq!(refusal(&b"\n".repeat(65_536)), Some((2, 1)));
}

#[test]
fn kinds_and_sections() {
    assert_eq!(refusal(b""), Some((3, 1)));
    check(&[
        ("3 0", Some((3, 1))),
        ("1", Some((3, 1))),
        ("14 0", Some((3, 1))),
        ("21 0 0", Some((3, 1))),
        ("0 0 0 0 0; 0 0 0 0 0", Some((3, 2))),
        ("0 0 0 0 0; 1; 0 0 0 0 0", Some((3, 3))),
        ("0 0 0 0 0; 22; 0 5000 0 0 0", Some((3, 3))),
        ("0 1 0 0 0; 1; 14 0", Some((3, 3))),
        ("0 1 0 0 0; 22; 14 0", Some((3, 3))),
        ("0 1 0 0 0; 22; 1", Some((3, 3))),
        ("0 1 0 0 0; 14 0; 22; 3 0", Some((3, 4))),
        ("0 1 0 0 0; 22; 3 9", Some((3, 3))),
        ("0 0 0 0 0; 13", Some((3, 2))),
        ("0 0 0 0 0; 15 0", Some((3, 2))),
        ("0 0 0 0 0; 20 0", Some((3, 2))),
        ("0 0 0 0 0; 37 0", Some((3, 2))),
        ("0 0 0 0 0; 4294967295", Some((3, 2))),
        ("41 0 1 1", Some((3, 1))),
    ]);
}

/// Kind, fewest and most numbers after it; 128 where a list makes the most.
const FIELDS: [(u32, usize, usize); 30] = [
    (0, 4, 4),
    (14, 1, 1),
    (1, 0, 0),
    (2, 0, 0),
    (3, 1, 1),
    (4, 1, 1),
    (5, 1, 1),
    (6, 1, 1),
    (7, 0, 128),
    (8, 0, 128),
    (9, 2, 2),
    (10, 2, 2),
    (11, 3, 3),
    (12, 3, 3),
    (21, 2, 2),
    (22, 0, 128),
    (23, 0, 128),
    (24, 1, 128),
    (25, 2, 2),
    (26, 2, 2),
    (27, 1, 128),
    (28, 1, 1),
    (29, 1, 1),
    (30, 1, 1),
    (31, 0, 128),
    (32, 2, 2),
    (33, 2, 2),
    (34, 0, 128),
    (35, 1, 1),
    (36, 2, 2),
];

/// Whether refusal 3 meets a line of the kind with so many numbers after it.
fn lacks_form(kind: u32, count: usize) -> bool {
    let line = spaced([vec![kind], vec![9; count]].concat());
    let header = if kind == 0 { "" } else { "0 1 1 1 0;" };
    let refused = refusal(&bytes(&format!("{header}{line}")));
    refused.is_some_and(|(number, _)| number == 3)
}

#[test]
fn numbers_of_fields() {
    for (kind, fewest, most) in FIELDS {
        for count in 0..8 {
            let has_form = (fewest..=most).contains(&count);
            assert_eq!(lacks_form(kind, count), !has_form, "{kind}, {count}");
        }
    }
}

#[test]
fn unknown_kinds() {
    let known = FIELDS.map(|(kind, _, _)| kind);
    for kind in (0..300).chain(u32::MAX - 2..=u32::MAX) {
        if !known.contains(&kind) {
            assert!((0..8).all(|count| lacks_form(kind, count)), "{kind}");
        }
    }
}

#[test]
fn limits_of_the_header() {
    check(&[
        ("0 4097 0 0 0", Some((4, 1))),
        ("0 0 4097 0 0", Some((4, 1))),
        ("0 0 0 1025 0", Some((4, 1))),
        ("0 4096 4096 1024 15", ACCEPTED),
        ("0 0 0 0 16", Some((4, 1))),
        ("0 4294967295 0 0 0", Some((4, 1))),
    ]);
}

#[test]
fn limits_of_lists() {
    let declared = format!("0 200 0 200 0{};", repeated("3", 130));
    for (front, numbers) in [
        ("7", 0..128),
        ("8", 1..129),
        ("22", 0..128),
        ("23", 0..128),
        ("24 0", 0..128),
        ("27 0", 0..128),
        ("31", 0..128),
        ("34", 0..128),
    ] {
        let list = spaced(numbers.clone());
        check(&[
            (&format!("{declared} {front} {list}"), ACCEPTED),
            (&format!("{declared} {front} {list} 129"), Some((4, 132))),
            (
                &format!("{declared} {front} {list} 4294967295"),
                Some((4, 132)),
            ),
            (&format!("{declared} {front} 99999 {list}"), Some((4, 132))),
            (&format!("0 1 0 1 0; {front} {list} 9"), Some((4, 2))),
        ]);
    }
}

#[test]
fn limits_of_concepts_and_axioms() {
    let concepts = format!("0 2000 0 1 0{}", repeated("3", 1_024));
    let axioms = format!("0 0 0 1 0{}", "; 28 0".repeat(1_024));
    check(&[
        (&concepts, ACCEPTED),
        (&format!("{concepts}; 21 0 1023"), ACCEPTED),
        (&format!("{concepts}; 21 0 1024"), Some((5, 1026))),
        (&format!("{concepts}; 3 1024"), Some((4, 1026))),
        (&format!("{concepts}; 3 5000"), Some((4, 1026))),
        (&format!("{concepts}; 6 9999"), Some((4, 1026))),
        (&format!("{concepts}; 7"), Some((4, 1026))),
        (&format!("{concepts}; 3 0"), Some((4, 1026))),
        (&format!("{concepts}; 3"), Some((3, 1026))),
        (&axioms, ACCEPTED),
        (&format!("{axioms}; 28 0"), Some((4, 1026))),
        (&format!("{axioms}; 28 2"), Some((4, 1026))),
        (&format!("{axioms}; 28"), Some((3, 1026))),
        (&format!("{axioms}; 1"), Some((3, 1026))),
    ]);
}

#[test]
fn names_of_concept_lines() {
    check(&[
        ("0 1 0 0 0; 14 1", Some((5, 2))),
        ("0 0 9 9 0; 14 0", Some((5, 2))),
        ("0 1 9 9 0; 3 1", Some((5, 2))),
        ("0 9 1 9 0; 4 1", Some((5, 2))),
        ("0 9 9 1 0; 5 1", ACCEPTED),
        ("0 9 9 1 0; 5 2", Some((5, 2))),
        ("0 9 9 0 0; 5 0", Some((5, 2))),
        ("0 9 9 1024 0; 5 4294967295", Some((5, 2))),
        ("0 0 0 1 0; 1; 9 2 0", Some((5, 3))),
        ("0 0 0 1 0; 1; 10 3 0", Some((5, 3))),
        ("0 0 0 1 0; 1; 11 1 2 0", Some((5, 3))),
        ("0 0 0 1 0; 1; 12 1 2 0", Some((5, 3))),
        ("0 0 0 1 0; 1; 9 2 7", Some((5, 3))),
    ]);
}

#[test]
fn names_of_axiom_lines() {
    // One class, one individual, one role, one concept: each line names the first of a sort that is missing.
    let missing = [
        "21 0 1", "21 1 0", "22 0 1", "22 1", "23 0 0 1", "24 1", "24 0 1", "24 1 0", "25 2 0",
        "25 0 1", "26 3 0", "26 0 1", "27 2", "27 0 0 2", "27 2 0", "28 2", "29 2", "30 2",
        "31 0 2", "32 0 2", "32 2 0", "33 0 2", "33 2 0", "34 2", "35 2", "36 1 0", "36 0 1",
    ];
    let present = [
        "21 0 0", "22 0 0", "23 0 0", "24 0 0", "25 1 0", "26 1 0", "27 1 0 1", "28 1", "29 1",
        "30 1", "31 0 1", "32 0 1", "33 1 0", "34 1 1", "35 1", "36 0 0",
    ];
    for axiom in missing {
        check(&[(&format!("0 1 1 1 0; 3 0; {axiom}"), Some((5, 3)))]);
    }
    for axiom in present {
        check(&[(&format!("0 1 1 1 0; 3 0; {axiom}"), ACCEPTED)]);
    }
    check(&[("0 1 0 0 0; 21 0 0", Some((5, 2)))]);
}

#[test]
fn concepts_name_earlier_ones() {
    check(&[
        ("0 0 0 1 0; 6 0", Some((6, 2))),
        ("0 0 0 1 0; 1; 6 1", Some((6, 3))),
        ("0 0 0 1 0; 6 1; 1", Some((6, 2))),
        ("0 0 0 1 0; 1; 6 4294967295", Some((6, 3))),
        ("0 0 0 1 0; 1; 9 0 1", Some((6, 3))),
        ("0 0 0 1 0; 1; 10 0 2", Some((6, 3))),
        ("0 0 0 1 0; 1; 11 0 0 1", Some((6, 3))),
        ("0 0 0 1 0; 1; 12 0 0 1", Some((6, 3))),
        ("0 1 1 0 0; 3 0; 4 0; 7 0 2", Some((6, 4))),
        ("0 1 1 0 0; 3 0; 4 0; 8 1 0 3", Some((6, 4))),
        ("0 1 1 0 0; 3 0; 7 1", Some((6, 3))),
    ]);
}

#[test]
fn depth() {
    let chain = |lines: u32| format!("0 1 0 1 0; 3 0{}", repeated("6", lines));
    check(&[
        (&chain(63), ACCEPTED),
        (&chain(64), Some((6, 66))),
        (&format!("{}; 3 0", chain(63)), Some((8, 66))),
        (&format!("{}; 7 0 62", chain(63)), ACCEPTED),
        (&format!("{}; 7 0 63", chain(63)), Some((6, 66))),
        (&format!("{}; 8 63 0", chain(63)), Some((6, 66))),
        (&format!("{}; 12 4294967295 0 63", chain(63)), Some((6, 66))),
    ]);
}

#[test]
fn lists_of_and_and_or() {
    let front = "0 3 0 0 0; 3 0; 3 1; 3 2; 1; 2; 7 0 1; 8 0 1";
    for (kind, own, other) in [(7, 5, 6), (8, 6, 5)] {
        let line = |list: &str| format!("{front}; {kind} {list}");
        check(&[
            (&line("0 2"), ACCEPTED),
            (&line("0 1 2"), ACCEPTED),
            (&line(&format!("0 {other}")), ACCEPTED),
            (&line(""), Some((7, 9))),
            (&line("0"), Some((7, 9))),
            (&line("0 0"), Some((7, 9))),
            (&line("2 1"), Some((7, 9))),
            (&line("0 2 1"), Some((7, 9))),
            (&line("0 2 2"), Some((7, 9))),
            (&line("0 3"), Some((7, 9))),
            (&line("0 4"), Some((7, 9))),
            (&line(&format!("0 {own}")), Some((7, 9))),
            (&line("2 1 9"), Some((6, 9))),
            (&line("0 1"), Some((8, 9))),
        ]);
    }
    check(&[
        ("0 0 0 0 0; 7", Some((7, 2))),
        ("0 0 0 0 0; 8", Some((7, 2))),
    ]);
}

#[test]
fn repeated_concept_lines() {
    check(&[
        ("0 0 0 0 0; 1; 1", Some((8, 3))),
        ("0 0 0 0 0; 1; 2; 1", Some((8, 4))),
        ("0 2 2 0 0; 3 1; 4 1; 3 0; 3 1", Some((8, 5))),
        ("0 0 0 1 0; 5 0; 5 1; 5 0", Some((8, 4))),
        ("0 0 0 1 0; 1; 6 0; 6 0", Some((8, 4))),
        ("0 0 0 1 0; 1; 9 0 0; 10 0 0; 9 0 0", Some((8, 5))),
        ("0 0 0 1 0; 1; 11 2 0 0; 11 2 0 0", Some((8, 4))),
        ("0 0 0 1 0; 1; 12 2 0 0; 11 2 0 0; 12 2 0 0", Some((8, 5))),
        ("0 1 1 0 0; 3 0; 4 0; 7 0 1; 8 0 1; 7 0 1", Some((8, 6))),
    ]);
}
