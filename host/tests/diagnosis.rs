//! The diagnosis beside the library: the same number and line, or none where no line check refuses.

mod common;

use std::fs;
use std::path::Path;

use common::{refused, worked};
use gorvask::diagnosis::session::diagnose_add;
use gorvask::diagnosis::{Diagnosis, diagnose};
use gorvask::{Clausifier, Refusal, Session};

/// The number and line of the library's refusal by a line check.
fn refusal(clausifier: &mut Clausifier, deck: &[u8]) -> Option<(u32, u32)> {
    let refusal = clausifier.clausify(deck).err()?;
    let is_of_lines = (2..=9).contains(&refusal.number());
    is_of_lines.then(|| (refusal.number(), refusal.line().unwrap_or(0)))
}

fn place(told: &Diagnosis) -> (u32, u32) {
    (told.number, told.line)
}

fn diagnosed(deck: &[u8]) -> Option<(u32, u32)> {
    diagnose(deck).as_ref().map(place)
}

#[test]
fn every_number() {
    let mut clausifier = Clausifier::new();
    assert_eq!(diagnosed(&worked()), None);
    for (number, line, deck) in refused() {
        let expected = (number < 10).then(|| (number, line.unwrap_or(0)));
        assert_eq!(diagnosed(&deck), expected);
        assert_eq!(refusal(&mut clausifier, &deck), expected);
    }
}

/// The decks of `tests/decided` with their names.
fn decided() -> impl Iterator<Item = (String, Vec<u8>)> {
    let folder = Path::new(env!("CARGO_MANIFEST_DIR")).join("../tests/decided");
    let entries = fs::read_dir(folder).expect("the stored decks");
    entries.filter_map(|entry| {
        let path = entry.expect("an entry of the folder").path();
        let name = path.file_name().unwrap_or_default().to_string_lossy();
        let deck = || fs::read(&path).expect("a stored deck");
        name.ends_with(".deck").then(|| (name.to_string(), deck()))
    })
}

/// A name of a stored deck has the refusal's number.
#[test]
fn stored_decks() {
    let mut clausifier = Clausifier::new();
    let mut met = [0; 10];
    for (name, deck) in decided() {
        let found = diagnosed(&deck);
        assert_eq!(found, refusal(&mut clausifier, &deck), "{name}");
        let number = found.map_or(0, |(number, _)| number as usize);
        let is_named = name.contains(&format!("refused_{number}_"));
        assert!(
            is_named || number == 0 && !name.contains("refused_"),
            "{name}"
        );
        met[number] += 1;
    }
    assert!(
        met[0] > 0 && met[2..].iter().all(|&decks| decks > 0),
        "{met:?}"
    );
    assert!(met[2..].iter().sum::<u32>() >= 74, "{met:?}");
}

/// The session's reply to an addition, which is the diagnosis's too; what was added is struck again.
fn added(session: &mut Session, text: &[u8]) -> u32 {
    let found = diagnose_add(session.text(), text).as_ref().map(place);
    let reply = |refusal: Refusal| (refusal.number(), refusal.line().unwrap_or(0));
    assert_eq!(
        session.add(text).err().map(reply),
        found,
        "{}",
        text.escape_ascii()
    );
    if found.is_none() {
        let (last, _) = session.axioms().last().expect("an axiom");
        session.strike(last).expect("done");
    }
    found.map_or(0, |(number, _)| number)
}

/// A line with each of its bytes changed, left out and written twice, and cut before it.
fn damaged(line: &[u8]) -> Vec<Vec<u8>> {
    let mut all = Vec::new();
    for place in 0..line.len() {
        let (front, back) = line.split_at(place);
        for middle in [
            &b""[..],
            b"0",
            b"9",
            b" ",
            b"x",
            b"\n",
            &line[place..=place],
        ] {
            let rest = if middle == &line[place..=place] {
                back
            } else {
                &back[1..]
            };
            all.push([front, middle, rest].concat());
        }
        all.push(front.to_vec());
    }
    all
}

/// Each line of the stored decks, and damaged ones, added to a session with and one without an axiom.
#[test]
fn additions_to_a_session() {
    let whole = worked();
    let bare = &whole[..whole.len() - 34];
    let mut met = [0; 6];
    for deck in [&whole[..], bare] {
        let mut session = Session::start(deck).expect("a session");
        for (_, stored) in decided() {
            for line in stored.split_inclusive(|&byte| byte == b'\n') {
                met[added(&mut session, line) as usize] += 1;
            }
        }
        for line in [
            &b"         21          0          2\n"[..],
            b"         29          1\n",
            b"         24          2          0          1\n",
            b"          3          2\n",
        ] {
            for text in damaged(line) {
                met[added(&mut session, &text) as usize] += 1;
            }
        }
        assert_eq!(session.text(), deck);
    }
    assert!(
        [0, 2, 3, 4, 5].iter().all(|&number| met[number] > 0),
        "{met:?}"
    );
}
