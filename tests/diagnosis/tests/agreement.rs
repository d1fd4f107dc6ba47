//! The diagnosis beside the reading of package `deck`: the same number and line, or none where no line check refuses.

use deck::damage::damage;
use deck::generate::any;
use deck::random::Random;
use deck::write::row;
use deck::{read, write};
use diagnosis::{Diagnosis, diagnose};

/// How many decks had each answer: at 0 accepted, at 2 to 9 refused by that number.
type Met = [u32; 10];

/// Compares the diagnosis of a deck with its reading.
fn compare(met: &mut Met, bytes: &[u8]) {
    let expected = read(bytes)
        .err()
        .map(|refusal| (refusal.number, refusal.line));
    let told = diagnose(bytes);
    let found = told.as_ref().map(|told| (told.number, told.line));
    assert_eq!(found, expected, "{told:?}\n{}", bytes.escape_ascii());
    if let Some(told) = told {
        assert_in_line(bytes, &told);
    }
    met[expected.map_or(0, |(number, _)| number as usize)] += 1;
}

/// The column is one of the line's bytes, or the one behind its last at which a line feed is missing.
fn assert_in_line(bytes: &[u8], told: &Diagnosis) {
    let mut lines = bytes.split_inclusive(|&byte| byte == b'\n');
    let line = lines.nth((told.line as usize).saturating_sub(1));
    let text = line.unwrap_or_default();
    let end = text.strip_suffix(b"\n").map_or(text.len() + 1, <[u8]>::len);
    let column = told.column.map_or(1, |column| column as usize);
    assert!((1..=end.max(1)).contains(&column), "{told:?}");
    assert!(told.line > 0 || told.column.is_none(), "{told:?}");
    assert!(
        !told.cause.is_empty() && !told.cause.contains('\n'),
        "{told:?}"
    );
}

/// Each of these answers was met often.
fn assert_met(met: &Met, answers: &[usize]) {
    println!("accepted, and refused by number: {met:?}");
    assert!(answers.iter().all(|&answer| met[answer] >= 50), "{met:?}");
}

const ALL: [usize; 9] = [0, 2, 3, 4, 5, 6, 7, 8, 9];

#[test]
fn damaged_decks() {
    let mut rng = Random::new(101);
    let mut met = Met::default();
    for _ in 0..20_000 {
        let (_, deck) = any(&mut rng);
        compare(&mut met, &damage(&mut rng, &write(&deck)));
    }
    assert_met(&met, &ALL);
}

/// Two faults, so that the order of the checks and of the lines counts.
#[test]
fn decks_damaged_twice() {
    let mut rng = Random::new(102);
    let mut met = Met::default();
    for _ in 0..20_000 {
        let (_, deck) = any(&mut rng);
        let once = damage(&mut rng, &write(&deck));
        compare(&mut met, &damage(&mut rng, &once));
    }
    assert_met(&met, &ALL);
}

/// A deck with few names, then lines of any kind and length with small numbers, mostly in the order of the sections; one of
/// them may come twice.
fn rows(rng: &mut Random) -> Vec<u8> {
    let mut rows: Vec<Vec<u32>> = (0..rng.between(1, 8))
        .map(|_| {
            let length = rng.between(1, 5);
            let mut row: Vec<u32> = (0..length).map(|_| rng.below(4)).collect();
            row[0] = rng.below(38);
            row
        })
        .collect();
    if rng.chance(1, 2) {
        let again = rng.pick(&rows).clone();
        rows.push(again);
    }
    if rng.chance(9, 10) {
        rows.sort_by_key(|row| (row[0] != 14, row[0] > 14));
    }
    let mut out = Vec::new();
    row(&mut out, &[0, 3, rng.below(4), 2, rng.below(4)]);
    for numbers in rows {
        row(&mut out, &numbers);
    }
    out
}

#[test]
fn lines_of_any_numbers() {
    let mut rng = Random::new(103);
    let mut met = Met::default();
    for _ in 0..50_000 {
        compare(&mut met, &rows(&mut rng));
    }
    assert_met(&met, &[0, 3, 5, 6, 7, 8]);
}

/// Texts of a line's characters and others, set in columns more or less.
fn text(rng: &mut Random) -> Vec<u8> {
    let mut out = Vec::new();
    let numbers = [
        "0",
        "0",
        "1",
        "3",
        "14",
        "00",
        "01",
        "4294967295",
        "4294967296",
        "",
    ];
    for _ in 0..rng.between(1, 12) {
        let number = *rng.pick(&numbers);
        let width = *rng.pick(&[11, 11, 11, 11, 11, 11, 10, 12, 22, 1]);
        out.extend_from_slice(format!("{number:>width$}").as_bytes());
        if rng.chance(1, 5) {
            out.push(*rng.pick(b"\n\n\n\n\n\n\n\n\r\t "));
        }
    }
    if rng.chance(4, 5) {
        out.push(b'\n');
    }
    out
}

#[test]
fn texts_near_a_line() {
    let mut rng = Random::new(104);
    let mut met = Met::default();
    for _ in 0..50_000 {
        let mut bytes = text(&mut rng);
        if rng.chance(1, 2) {
            bytes.splice(
                0..0,
                *b"          0          1          1          1          0\n",
            );
        }
        compare(&mut met, &bytes);
    }
    assert_met(&met, &[0, 2, 3]);
}
