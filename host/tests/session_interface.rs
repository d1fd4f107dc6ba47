//! The C interface of a session: every byte that is lent, and refusal 1.

mod common;

use std::ptr::null;

use common::{deck, refused, worked};
use gorvask::sys::{
    NUMBERS_BYTES, SCRATCH_BYTES, SESSION_BYTES, gorvask_clausify_with_stats, gorvask_session_add,
    gorvask_session_options, gorvask_session_start, gorvask_session_strike, gorvask_session_take,
};

/// What a session is asked for.
#[derive(Clone, Copy, Debug)]
enum Ask<'a> {
    Start(&'a [u8]),
    Add(&'a [u8]),
    Strike(u32),
    Options(u32),
}

/// A session and scratch with something in each byte.
struct Lent {
    session: Vec<u8>,
    scratch: Vec<u8>,
}

fn dirty(length: usize) -> Vec<u8> {
    (1..=255).cycle().take(length).collect()
}

impl Lent {
    fn new() -> Self {
        Self::bytes(SESSION_BYTES, SCRATCH_BYTES)
    }

    fn bytes(session: usize, scratch: usize) -> Self {
        let [session, scratch] = [session, scratch].map(dirty);
        Self { session, scratch }
    }

    fn with(deck: &[u8]) -> Self {
        let mut lent = Self::new();
        assert_eq!(lent.call(Ask::Start(deck)), (0, 0));
        lent
    }

    /// The reply to a call with dirty scratch, which it leaves clear.
    fn call(&mut self, ask: Ask<'_>) -> (u64, u64) {
        self.scratch = dirty(self.scratch.len());
        let (session, bytes) = (self.session.as_mut_ptr(), self.session.len());
        let (scratch, most) = (self.scratch.as_mut_ptr(), self.scratch.len());
        // SAFETY: vectors of their own, each with its length.
        let reply = unsafe {
            match ask {
                Ask::Start(deck) => {
                    gorvask_session_start(deck.as_ptr(), deck.len(), session, bytes, scratch, most)
                }
                Ask::Add(line) => {
                    gorvask_session_add(line.as_ptr(), line.len(), session, bytes, scratch, most)
                }
                Ask::Strike(line) => gorvask_session_strike(line, session, bytes, scratch, most),
                Ask::Options(options) => {
                    gorvask_session_options(options, session, bytes, scratch, most)
                }
            }
        };
        assert!(self.scratch.iter().all(|&byte| byte == 0), "{ask:?}");
        (reply >> 32, reply & 0xffff_ffff)
    }

    /// The call is refused so, and each byte of the session is as it was.
    fn assert_refused(&mut self, ask: Ask<'_>, number: u64, line: u64) {
        let before = self.session.clone();
        assert_eq!(self.call(ask), (number, line), "{ask:?}");
        assert!(self.session == before, "{ask:?}");
    }
}

type Entry = unsafe extern "C" fn(
    *const u8,
    usize,
    *mut u8,
    usize,
    *mut u8,
    usize,
    *mut u8,
    usize,
    *mut u8,
    usize,
    *mut u8,
    usize,
) -> u64;

/// Dirty tables of clauses, atoms, deferrals, numbers and scratch.
#[derive(PartialEq)]
struct Tables([Vec<u8>; 5]);

impl Tables {
    const FINE: [usize; 5] = [12 * 64, 24 * 128, 8 * 2, NUMBERS_BYTES, SCRATCH_BYTES];

    fn fine() -> Self {
        Self(Self::FINE.map(dirty))
    }

    fn call(&mut self, entry: Entry, read: &[u8]) -> u64 {
        let [clauses, atoms, deferrals, numbers, scratch] = &mut self.0;
        // SAFETY: vectors of their own, each with its length.
        unsafe {
            entry(
                read.as_ptr(),
                read.len(),
                clauses.as_mut_ptr(),
                clauses.len(),
                atoms.as_mut_ptr(),
                atoms.len(),
                deferrals.as_mut_ptr(),
                deferrals.len(),
                numbers.as_mut_ptr(),
                numbers.len(),
                scratch.as_mut_ptr(),
                scratch.len(),
            )
        }
    }

    fn all_zeros(&self) -> bool {
        self.0.iter().flatten().all(|&byte| byte == 0)
    }
}

/// What a session of a deck is.
fn stored(deck: &[u8]) -> Vec<u8> {
    let length = u32::try_from(deck.len()).expect("a short deck");
    let mut bytes = length.to_le_bytes().to_vec();
    bytes.extend_from_slice(deck);
    bytes.resize(SESSION_BYTES, 0);
    bytes
}

fn line(numbers: &[u32]) -> Vec<u8> {
    deck(&[numbers.to_vec()])
}

/// Document 01's worked deck with other options and other axioms.
fn live(options: u32, axioms: &[&[u32]]) -> Vec<u8> {
    let mut rows = vec![
        vec![0, 3, 0, 1, options],
        vec![3, 0],
        vec![3, 1],
        vec![9, 0, 1],
    ];
    rows.extend(axioms.iter().map(|axiom| axiom.to_vec()));
    deck(&rows)
}

const SUB: &[u32] = &[21, 0, 2];
const APART: &[u32] = &[23, 0, 1];

#[test]
fn each_call_leaves_the_live_deck_and_zeros() {
    let mut lent = Lent::new();
    assert_eq!(live(3, &[SUB]), worked());
    for (ask, left) in [
        (Ask::Start(&worked()), live(3, &[SUB])),
        (Ask::Add(&line(APART)), live(3, &[SUB, APART])),
        (Ask::Add(&line(SUB)), live(3, &[SUB, APART, SUB])),
        (Ask::Options(0), live(0, &[SUB, APART, SUB])),
        (Ask::Strike(5), live(0, &[APART, SUB])),
        (Ask::Strike(6), live(0, &[APART])),
        (Ask::Options(15), live(15, &[APART])),
        (Ask::Strike(5), live(15, &[])),
        (Ask::Add(&line(SUB)), live(15, &[SUB])),
        (Ask::Start(&live(2, &[])), live(2, &[])),
    ] {
        assert_eq!(lent.call(ask), (0, 0), "{ask:?}");
        assert!(lent.session == stored(&left), "{ask:?}");
    }
}

#[test]
fn a_refused_start_leaves_zeros() {
    for (number, at, text) in refused() {
        let mut lent = Lent::with(&worked());
        let reply = lent.call(Ask::Start(&text));
        let told = (u64::from(number), u64::from(at.unwrap_or(0)));
        // 10 to 12 come with the clauses.
        if number < 10 {
            assert_eq!(reply, told);
            assert!(lent.session.iter().all(|&byte| byte == 0), "{number}");
        } else {
            assert_eq!(reply, (0, 0));
            assert!(lent.session == stored(&text));
            let mut tables = Tables::fine();
            let refused = tables.call(gorvask_session_take, &lent.session);
            assert_eq!((refused >> 32, refused & 0xffff_ffff), told);
            assert!(tables.all_zeros() && lent.session == stored(&text));
        }
    }
}

#[test]
fn a_refused_change_leaves_every_byte() {
    let mut lent = Lent::with(&worked());
    let cut = &line(SUB)[..33];
    for (text, number, at) in [
        (b"".to_vec(), 3, 6),
        (b"21 0 1\n".to_vec(), 2, 6),
        (cut.to_vec(), 2, 6),
        ([line(&[21, 0]), b"\n".to_vec()].concat(), 3, 6),
        ([b"\n".to_vec(), line(SUB)].concat(), 2, 6),
        (line(&[3, 2]), 3, 6),
        (line(&[20, 2]), 3, 6),
        (line(&[37, 2]), 3, 6),
        (line(&[21, 0]), 3, 6),
        (line(&[&[23], &[0; 129][..]].concat()), 4, 6),
        (line(&[21, 0, 3]), 5, 6),
        (line(&[28, 2]), 5, 6),
        (vec![b' '; 65_537 - worked().len()], 2, 0),
    ] {
        lent.assert_refused(Ask::Add(&text), number, at);
    }
    for at in [0, 1, 2, 4, 6, u32::MAX] {
        lent.assert_refused(Ask::Strike(at), 15, 0);
    }
    for options in [16, u32::MAX] {
        lent.assert_refused(Ask::Options(options), 4, 1);
    }
}

#[test]
fn wrong_sizes_are_refusal_1() {
    let (more, none) = (line(SUB), Ask::Options(3));
    for (bytes, most) in [
        (SESSION_BYTES - 1, SCRATCH_BYTES),
        (SESSION_BYTES + 1, SCRATCH_BYTES),
        (0, SCRATCH_BYTES),
        (SESSION_BYTES, SCRATCH_BYTES - 1),
        (SESSION_BYTES, 0),
    ] {
        let mut lent = Lent::bytes(bytes, most);
        let mut held = stored(&worked());
        held.resize(bytes, 0);
        lent.session = held;
        for ask in [Ask::Add(&more), Ask::Strike(5), Ask::Strike(0), none] {
            lent.assert_refused(ask, 1, 0);
        }
        assert_eq!(lent.call(Ask::Start(&worked())), (1, 0));
        assert!(lent.session.iter().all(|&byte| byte == 0));
    }
    let mut lent = Lent::bytes(SESSION_BYTES, SCRATCH_BYTES + 13);
    assert_eq!(lent.call(Ask::Start(&worked())), (0, 0));
}

/// Sessions that hold no deck.
fn damaged() -> Vec<Vec<u8>> {
    let good = stored(&worked());
    let with = |place: usize, byte: u8| {
        let mut bytes = good.clone();
        bytes[place] = byte;
        bytes
    };
    let length = u8::try_from(worked().len()).expect("a short deck");
    let mut past = stored(&vec![b' '; 65_536]);
    past[..4].copy_from_slice(&65_537_u32.to_le_bytes());
    vec![
        vec![0; SESSION_BYTES],
        dirty(SESSION_BYTES),
        with(0, length - 1),
        with(0, length + 1),
        with(3, 1),
        with(14, b'x'),
        with(4 + worked().len(), b' '),
        with(SESSION_BYTES - 1, 1),
        stored(&worked()[..57]),
        stored(&live(16, &[SUB])),
        stored(&live(3, &[&[21, 0, 3]])),
        past,
    ]
}

#[test]
fn a_session_that_holds_no_deck_is_refusal_1() {
    let more = line(SUB);
    for session in damaged() {
        let mut lent = Lent::new();
        lent.session = session;
        for ask in [
            Ask::Add(&more),
            Ask::Add(b""),
            Ask::Strike(5),
            Ask::Strike(0),
            Ask::Options(3),
            Ask::Options(17),
        ] {
            lent.assert_refused(ask, 1, 0);
        }
        let mut tables = Tables::fine();
        assert_eq!(tables.call(gorvask_session_take, &lent.session), 1 << 32);
        assert!(tables.all_zeros());
        // A start takes no look at what was there.
        assert_eq!(lent.call(Ask::Start(&worked())), (0, 0));
        assert!(lent.session == stored(&worked()));
    }
}

#[test]
fn a_take_leaves_what_a_run_of_the_live_deck_does() {
    let mut lent = Lent::with(&worked());
    for ask in [
        Ask::Options(3),
        Ask::Add(&line(APART)),
        Ask::Add(&line(&[27, 0, 0, 0, 0])),
        Ask::Add(&line(&[22, 0, 1, 2])),
        Ask::Strike(5),
        Ask::Options(0),
    ] {
        assert_eq!(lent.call(ask), (0, 0));
        let length = u32::from_le_bytes(lent.session[..4].try_into().expect("a word"));
        let text = &lent.session[4..4 + length as usize];
        for (place, bytes) in [(0, 12), (1, 24), (2, 0), (2, 4), (3, 36), (4, 0)] {
            for size in [Tables::FINE[place], bytes] {
                let [mut taken, mut run] = [Tables::fine(), Tables::fine()];
                for tables in [&mut taken, &mut run] {
                    tables.0[place] = dirty(size);
                }
                let before = lent.session.clone();
                let reply = taken.call(gorvask_session_take, &lent.session);
                assert_eq!(reply, run.call(gorvask_clausify_with_stats, text));
                assert!(taken == run && lent.session == before, "{ask:?}");
            }
        }
    }
}

#[test]
fn a_text_of_no_byte_may_be_null() {
    let mut lent = Lent::with(&worked());
    let Lent { session, scratch } = &mut lent;
    let (at, bytes) = (session.as_mut_ptr(), session.len());
    let (work, most) = (scratch.as_mut_ptr(), scratch.len());
    // SAFETY: vectors of their own, each with its length; NULL where there are no bytes.
    let replies = unsafe {
        [
            gorvask_session_add(null(), 0, at, bytes, work, most),
            gorvask_session_start(null(), 0, at, bytes, work, most),
        ]
    };
    assert_eq!(replies, [(3 << 32) + 6, (3 << 32) + 1]);
}
