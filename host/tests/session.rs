//! The wrapper of a session: changes, refusals, growth, and sessions that are kept as bytes.

mod common;

use common::{deck, equivalent, many_visits, refused, texts, worked};
use gorvask::diagnosis::Diagnosis;
use gorvask::diagnosis::session::{diagnose_add, diagnose_options, diagnose_strike};
use gorvask::sys::SESSION_BYTES;
use gorvask::{Clausifier, Refusal, RefusalKind, Session, Sizes};

fn line(numbers: &[u32]) -> Vec<u8> {
    deck(&[numbers.to_vec()])
}

fn told(refused: Result<(), Refusal>) -> (u32, u32) {
    let refusal = refused.expect_err("refused");
    (refusal.number(), refusal.line().unwrap_or(0))
}

/// What a taking and a run of the live deck say, which is the same.
fn taken(session: &mut Session) -> Result<Vec<String>, Refusal> {
    let text = session.text().to_vec();
    let run = Clausifier::new().clausify(&text).map(|clauses| {
        let numbers = (clauses.statistics(), clauses.fresh_ids(), clauses.visits());
        (texts(clauses), numbers, clauses.provisos())
    });
    let take = session.take().map(|clauses| {
        let numbers = (clauses.statistics(), clauses.fresh_ids(), clauses.visits());
        (texts(clauses), numbers, clauses.provisos())
    });
    assert_eq!(take, run);
    assert_eq!(session.text(), text);
    take.map(|(texts, ..)| texts)
}

#[test]
fn axioms_come_and_go() {
    let mut session = Session::start(&worked()).expect("a session");
    assert_eq!(session.text(), worked());
    assert_eq!(
        taken(&mut session),
        Ok(vec!["A0(x) → ∃r0.A1(x)".to_owned()])
    );
    session.add(&line(&[23, 0, 1])).expect("done");
    session.add(&line(&[29, 0])).expect("done");
    let axioms = vec![(5, vec![21, 0, 2]), (6, vec![23, 0, 1]), (7, vec![29, 0])];
    assert!(session.axioms().eq(axioms));
    assert_eq!(
        taken(&mut session),
        Ok(["A0(x) → ∃r0.A1(x)", "A0(x), A1(x) → ⊥", "r0(x,x) → ⊥"]
            .map(str::to_owned)
            .to_vec())
    );
    session.strike(5).expect("done");
    assert!(session.axioms().eq([(5, vec![23, 0, 1]), (6, vec![29, 0])]));
    session.strike(6).expect("done");
    session.strike(5).expect("done");
    assert_eq!(
        (session.axioms().count(), taken(&mut session)),
        (0, Ok(vec![]))
    );
    session.add(&line(&[21, 0, 2])).expect("done");
    assert_eq!(session.text(), worked());
}

/// Option 4 has a fresh class equal to what an at-most counts.
#[test]
fn options_change_the_answer() {
    let rows = [
        vec![0, 3, 0, 1, 3],
        vec![3, 0],
        vec![3, 1],
        vec![3, 2],
        vec![7, 1, 2],
        vec![12, 0, 0, 3],
        vec![21, 0, 4],
    ];
    let mut session = Session::start(&deck(&rows)).expect("a session");
    assert_eq!(taken(&mut session).map(|texts| texts.len()), Ok(3));
    session.options(7).expect("done");
    assert_eq!(taken(&mut session).map(|texts| texts.len()), Ok(4));
    session.options(3).expect("done");
    assert_eq!(session.text(), deck(&rows));
}

/// A start is refused as a run is by the line checks, and a taking by the rest; the session then goes on.
#[test]
fn a_start_and_a_taking_refuse_what_a_run_does() {
    for (number, at, text) in refused() {
        match Session::start(&text) {
            Err(refusal) => assert_eq!((refusal.number(), refusal.line()), (number, at)),
            Ok(mut session) => {
                assert!((10..=12).contains(&number), "{number}");
                let refusal = taken(&mut session).expect_err("refused");
                assert_eq!((refusal.number(), refusal.line()), (number, at));
                while let Some((last, _)) = session.axioms().last() {
                    session.strike(last).expect("done");
                }
                assert_eq!(taken(&mut session), Ok(vec![]));
            }
        }
    }
}

#[test]
fn a_taking_is_refused_until_the_axiom_is_struck() {
    let (number, at, text) = many_visits();
    let mut session = Session::start(&text).expect("a session");
    session.add(&line(&[21, 0, 0])).expect("done");
    let refusal = taken(&mut session).expect_err("refused");
    assert_eq!((refusal.number(), refusal.line()), (number, at));
    session.strike(at.expect("a line")).expect("done");
    assert_eq!(taken(&mut session), Ok(vec!["A0(x) → A0(x)".to_owned()]));
}

/// The diagnosis has the library's number and line.
fn assert_told(refused: Result<(), Refusal>, diagnosis: Option<Diagnosis>, reply: (u32, u32)) {
    assert_eq!(told(refused), reply);
    let found = diagnosis.expect("a diagnosis");
    assert_eq!((found.number, found.line), reply, "{found}");
}

#[test]
fn a_refused_change_is_told_and_leaves_the_session() {
    let mut session = Session::start(&worked()).expect("a session");
    let before = session.as_bytes().to_vec();
    let list = |entries| line(&[&[23], &vec![0; entries][..]].concat());
    for (text, number, at) in [
        (b"".to_vec(), 3, 6),
        (b"\n".to_vec(), 2, 6),
        (b"         29          0".to_vec(), 2, 6),
        (b"         29          0\r\n".to_vec(), 2, 6),
        ([line(&[29, 0]), line(&[29, 0])].concat(), 3, 6),
        ([line(&[29]), b"x".to_vec()].concat(), 3, 6),
        (line(&[0, 3, 0, 1, 3]), 3, 6),
        (line(&[14, 0]), 3, 6),
        (line(&[3, 2]), 3, 6),
        (line(&[13]), 3, 6),
        (line(&[29, 0, 0]), 3, 6),
        (list(129), 4, 6),
        (line(&[36, 0, 0]), 5, 6),
        (line(&[24, 3]), 5, 6),
        (vec![b'1'; 65_536], 2, 0),
    ] {
        let found = diagnose_add(session.text(), &text);
        assert_told(session.add(&text), found, (number, at));
    }
    for at in [0, 1, 2, 4, 6, u32::MAX] {
        let found = diagnose_strike(session.text(), at);
        assert_told(session.strike(at), found, (15, 0));
    }
    for options in [16, 20, u32::MAX] {
        let found = diagnose_options(session.text(), options);
        assert_told(session.options(options), found, (4, 1));
    }
    assert_eq!(session.as_bytes(), before);
    session.add(&list(128)).expect("done");
}

#[test]
fn words_of_refusal_15() {
    let mut session = Session::start(&worked()).expect("a session");
    let refusal = session.strike(1).expect_err("refused");
    assert_eq!(refusal.kind(), RefusalKind::NotLive);
    assert_eq!(
        refusal.to_string(),
        "the line that is to be struck is no axiom's in the session's deck; to do: look up the axiom's line in that deck as \
         it is now: it counts from 1, the header first, and behind a struck line the others have moved up (refusal 15)"
    );
}

#[test]
fn as_many_axioms_as_a_deck_may_have() {
    let mut rows = vec![vec![0, 0, 0, 1, 0]];
    rows.extend(vec![vec![29, 0]; 1_023]);
    let mut session = Session::start(&deck(&rows)).expect("a session");
    session.add(&line(&[28, 0])).expect("done");
    let found = diagnose_add(session.text(), &line(&[28, 0]));
    assert_told(session.add(&line(&[28, 0])), found, (4, 1_026));
    session.strike(2).expect("done");
    session.add(&line(&[30, 0])).expect("done");
    assert_eq!(session.axioms().last(), Some((1_025, vec![30, 0])));
}

/// A list of n entries takes 11 × (n + 1) + 1 bytes.
#[test]
fn as_many_bytes_as_a_deck_may_have() {
    let mut rows = vec![vec![0, 0, 0, 1, 0]];
    let list = |entries: usize| [vec![34], vec![0; entries]].concat();
    rows.extend(vec![list(128); 46]);
    let mut session = Session::start(&deck(&rows)).expect("a session");
    // 56 + 46 × 1,420 bytes, and 160 more.
    for entries in [4, 7] {
        session.add(&line(&list(entries))).expect("done");
    }
    let left = 65_536 - session.text().len();
    assert_eq!(left, 15);
    let found = diagnose_add(session.text(), &line(&[28, 0]));
    assert_told(session.add(&line(&[28, 0])), found, (2, 0));
    assert_eq!(told(session.add(&[b' '; 15])), (2, 50));
    session.add(&line(&[34])).expect("done");
    assert_eq!(session.text().len(), 65_533);
    assert_eq!(told(session.add(b"    ")), (2, 0));
    assert_eq!(told(session.add(b"   ")), (2, 51));
    session.take().expect("accepted");
}

#[test]
fn tables_grow_with_the_session_and_stay() {
    let whole = equivalent(128, 1);
    let mut session = Session::start(&whole).expect("a session");
    assert_eq!(session.sizes(), Sizes::FIRST);
    assert_eq!(taken(&mut session).map(|texts| texts.len()), Ok(128 * 127));
    let grown = Sizes {
        clauses: 16_384,
        atoms: 32_768,
        deferrals: Sizes::FIRST.deferrals,
    };
    assert_eq!(session.sizes(), grown);
    session.strike(130).expect("done");
    assert_eq!(taken(&mut session), Ok(vec![]));
    assert_eq!(session.sizes(), grown);
    session.reserve(Sizes::LARGEST);
    assert_eq!(session.sizes(), Sizes::LARGEST);
    let all: Vec<u32> = std::iter::once(22).chain(0..128).collect();
    session.add(&line(&all)).expect("done");
    assert_eq!(session.text(), whole);
    assert_eq!(session.take().map(|clauses| clauses.len()), Ok(128 * 127));
}

#[test]
fn a_session_is_kept_as_bytes() {
    let mut session = Session::start(&worked()).expect("a session");
    session.add(&line(&[23, 0, 1])).expect("done");
    let kept = session.as_bytes().to_vec();
    assert_eq!(kept.len(), SESSION_BYTES);
    let mut second = Session::from_bytes(&kept).expect("a session");
    assert_eq!(
        (second.text(), second.as_bytes()),
        (session.text(), &kept[..])
    );
    second.strike(5).expect("done");
    assert_eq!(second.axioms().collect::<Vec<_>>(), [(5, vec![23, 0, 1])]);
    assert_eq!(session.axioms().count(), 2);
    let copy = session.clone();
    session.options(0).expect("done");
    assert_eq!(copy.as_bytes(), kept);
}

#[test]
fn damaged_bytes_are_no_session() {
    let good = Session::start(&worked())
        .expect("a session")
        .as_bytes()
        .to_vec();
    let refused = |bytes: &[u8]| {
        let refusal = Session::from_bytes(bytes).expect_err("refused");
        assert_eq!(
            (refusal.kind(), refusal.line()),
            (RefusalKind::WrongSize, None)
        );
    };
    for bytes in [
        &[][..],
        &worked(),
        &good[..SESSION_BYTES - 1],
        &vec![0; SESSION_BYTES],
    ] {
        refused(bytes);
    }
    refused(&[&good[..], &[0]].concat());
    // A letter for each byte of the text, and something behind it.
    for place in (0..worked().len() + 8).chain([65_000, SESSION_BYTES - 1]) {
        let mut bytes = good.clone();
        bytes[place] = b'x';
        refused(&bytes);
    }
}

#[test]
fn a_session_may_change_threads() {
    fn may_move<T: Send + Sync + 'static>() {}
    may_move::<Session>();
}
