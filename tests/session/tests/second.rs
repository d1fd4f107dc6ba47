//! The second reading by itself.

use deck::random::Random;
use deck::write::row;
use session::second::{NO_SESSION, NOT_LIVE, Session, TOO_LONG, stored};

fn lines(rows: &[&[u32]]) -> Vec<u8> {
    let mut out = Vec::new();
    rows.iter().for_each(|numbers| row(&mut out, numbers));
    out
}

fn small() -> Vec<u8> {
    lines(&[&[0, 2, 0, 1, 3], &[3, 0], &[3, 1], &[21, 0, 1], &[28, 0]])
}

#[test]
fn a_table_is_a_length_a_text_and_zeros() {
    let table = Session::start(&small()).unwrap().table();
    assert_eq!(table.len(), 65_540);
    assert_eq!(&table[..4], &[56 + 2 * 23 + 34 + 23, 0, 0, 0]);
    assert_eq!(&table[4..4 + small().len()], &small());
    assert!(table[4 + small().len()..].iter().all(|&byte| byte == 0));
}

/// What a table holds is that it is stored again, and what is stored is held.
#[test]
fn held_and_stored() {
    let session = Session::start(&small()).unwrap();
    let table = session.table();
    assert_eq!(Session::held(&table), Some(session));
    let mut rng = Random::new(1);
    for _ in 0..2_000 {
        let mut other = table.clone();
        let place = match rng.below(3) {
            0 => rng.index(4),
            1 => 4 + rng.index(small().len()),
            _ => rng.index(other.len()),
        };
        other[place] = *rng.pick(b"0123456789 \n\0\x01\xff");
        if let Some(held) = Session::held(&other) {
            assert_eq!(held.table(), other);
            assert!(deck::read(&held.text()).is_ok());
        }
    }
    for table in [
        &[][..],
        &[0; 65_540],
        &[0; 4],
        &table[..65_539],
        &[&table[..], &[0]].concat(),
        &stored(b""),
        &stored(b"\n"),
    ] {
        assert_eq!(Session::held(table), None);
    }
}

/// A session after any calls is the one that starts from its text.
#[test]
fn calls_leave_sessions() {
    let mut session = Session::start(&small()).unwrap();
    let mut rng = Random::new(2);
    for _ in 0..500 {
        let did = match rng.below(3) {
            0 => session.add(&lines(&[&[28 + rng.below(3), rng.below(3)]])),
            1 => session.strike(rng.below(session.lines() + 2)),
            _ => session.options(rng.below(9)),
        };
        if let Ok(did) = did {
            session = did;
        }
        assert_eq!(Session::start(&session.text()), Ok(session.clone()));
        assert_eq!(Session::held(&session.table()), Some(session.clone()));
    }
}

#[test]
fn options_end_in_their_columns() {
    let session = Session::start(&small()).unwrap();
    let text = session.options(5).unwrap().text();
    assert_eq!(text.len(), small().len());
    let other: Vec<usize> = (0..text.len())
        .filter(|&at| text[at] != small()[at])
        .collect();
    assert_eq!(other, [54]);
    assert_eq!(text[54], b'5');
}

#[test]
fn the_refusals_that_are_its_own() {
    let told = [NO_SESSION, TOO_LONG, NOT_LIVE].map(|refusal| (refusal.number, refusal.line));
    assert_eq!(told, [(1, 0), (2, 0), (15, 0)]);
}
