use std::fmt::Write;
use std::fs;

use gorvask::Names;

use super::{SHOWN, kind, stands_behind, text};
use crate::input::Input;

fn deck(rows: &[&[u32]]) -> Input {
    let mut text = String::new();
    for row in rows {
        for number in *row {
            write!(text, "{number:11}").expect("a text takes all");
        }
        text.push('\n');
    }
    of_bytes(text.into_bytes())
}

fn of_bytes(bytes: Vec<u8>) -> Input {
    Input {
        what: "deck",
        name: String::new(),
        bytes,
    }
}

/// The kinds' table of docs/DECK.md has each kind's example in OWL's words, over the names above it; the examples are lines of
/// the page's first deck.
#[test]
fn every_example_of_the_page_is_written_as_there() {
    let page = concat!(env!("CARGO_MANIFEST_DIR"), "/../docs/DECK.md");
    let page = fs::read_to_string(page).expect("the page");
    let block = page.split("```deck\n").nth(1).expect("a deck");
    let block = block.split("```").next().expect("its end");
    let deck = of_bytes(block.as_bytes().to_vec());
    let names: Names = "class 0 Normal\nclass 1 Reverse\nclass 2 Proceed\nclass 3 Section\nclass 4 Clear\nclass 5 Occupied\n\
                        class 6 Signal\nclass 7 Stop\nclass 8 Length\nrole 0 needs\nrole 1 protects\nrole 2 guard\n\
                        role 3 joins\nrole 4 reaches\nindividual 0 S1\n"
        .parse()
        .expect("names");
    let mut written = 0;
    for row in page.lines().filter(|line| line.starts_with("| ")) {
        let cells: Vec<&str> = row.split(" | ").collect();
        let [_, _, example, owl] = cells[..] else {
            continue;
        };
        let [example, owl] =
            [example, owl.trim_end_matches(" |")].map(|cell| cell.trim_matches('`'));
        let numbers = |line: &str| line.split_whitespace().collect::<Vec<_>>().join(" ");
        let place = block.lines().position(|line| numbers(line) == example);
        let Some(line) = place.filter(|_| !owl.contains(' ') || owl.contains('(')) else {
            continue;
        };
        let line = u32::try_from(line + 1).expect("a line");
        if kind(&deck, line).is_some() {
            assert_eq!(text(&deck, line, &names), owl, "{example}");
            written += 1;
        }
    }
    assert_eq!(written, 12 + 16);
}

#[test]
fn numbers_where_there_is_no_name() {
    let deck = deck(&[
        &[0, 1, 1, 2, 3],
        &[14, 0],
        &[3, 0],
        &[4, 0],
        &[11, 2, 3, 1],
        &[21, 0, 2],
        &[27, 0],
        &[32, 0, 2],
        &[23],
    ]);
    let text = |line| text(&deck, line, &Names::default());
    assert_eq!(
        text(6),
        "SubClassOf(A0 ObjectMinCardinality(2 ObjectInverseOf(r1) ObjectOneOf(i0)))"
    );
    assert_eq!(text(7), "SubObjectPropertyOf(ObjectPropertyChain() r0)");
    assert_eq!(text(9), "DisjointClasses()");
    assert!(stands_behind(&deck, 7, 32) && !stands_behind(&deck, 8, 32));
}

/// Each level names the one below twice.
#[test]
fn a_long_axiom_is_cut() {
    let mut rows = vec![vec![0, 1, 0, 2, 3], vec![3, 0]];
    for level in 0..20 {
        let below = 3 * level;
        rows.push(vec![9, 0, below]);
        rows.push(vec![9, 2, below]);
        rows.push(vec![7, below + 1, below + 2]);
    }
    rows.push(vec![21, 0, 60]);
    let rows: Vec<&[u32]> = rows.iter().map(Vec::as_slice).collect();
    let text = text(&deck(&rows), 63, &Names::default());
    assert!(text.starts_with("SubClassOf(A0 ObjectIntersectionOf(") && text.ends_with(" .."));
    assert!(text.len() < SHOWN + 200, "{}", text.len());
}

/// A list that ends just behind the most is written whole.
#[test]
fn nothing_is_cut_that_ends() {
    let roles: Vec<u32> = [31].into_iter().chain([2_000; 121]).collect();
    let deck = deck(&[&[0, 0, 0, 1_024, 3], &roles]);
    let names: Names = "role 1000 long-name\n".parse().expect("names");
    let [short, long] = [&Names::default(), &names].map(|names| text(&deck, 2, names));
    assert_eq!(
        short.len(),
        "DisjointObjectProperties()".len() + 6 * 121 - 1
    );
    assert!(short.ends_with(" r1000)") && long.ends_with(" long-name .."));
    assert_eq!(long.matches("long-name").count(), 98);
}
