//! A stand-in for the proved library, of the same signatures: it answers from the second reading, and errs where it is told to.

mod wrong;

use std::cell::{Cell, RefCell};

use entry::{Outcome, Sizes};
use lent::{SCRATCH, SESSION, bytes};

use crate::call::Library;
use crate::draw::answer;
use crate::second::{NO_SESSION, Session, WORD, stored};
use crate::steps::Call;

/// Where the stand-in errs. A place is one of the tables: text, session, scratch; or of a taking clauses, atoms, deferrals, numbers,
/// scratch.
#[derive(Clone, Copy, Debug, PartialEq, Eq)]
pub enum Fault {
    None,
    OtherNumber,
    OtherLine,
    /// Says that a refused call is done.
    Accepts,
    /// A refused start leaves the session.
    StartLeaves,
    /// The same where a size does not fit.
    StartLeavesAtSizes,
    /// A start is refused where there is a session.
    StartOnce,
    /// A start leaves what stood behind the deck's text.
    StartNotCleared,
    LengthOneLess,
    ZerosAreThree,
    TailNotLookedAt,
    LastByteNotLookedAt,
    TextNotLookedAt,
    /// The header alone is looked at.
    HeaderLookedAt,
    AddBehindFirst,
    AddBeforeLast,
    TwoAndThreeTurned,
    ConceptTaken,
    TwoLinesTaken,
    RefusedTextLeft,
    /// A refused addition leaves zeros.
    RefusedCleared,
    TooLongAtLine,
    TooLongLast,
    LengthOneLimitLess,
    LastAxiomLimitLess,
    MoreAxiomsTaken,
    LongListsTaken,
    NamesNotAsked,
    EmptyIsTwo,
    AddedLineLess,
    StrikeFromAxioms,
    NextStruck,
    LastNotLive,
    FirstNotLive,
    AnyLineStruck,
    NotLiveAtLine,
    NotLiveFirst,
    /// What stood behind the struck text stays.
    StruckNotCleared,
    OptionsLimitOneMore,
    OptionsLimitOneLess,
    OptionsInRoles,
    OptionsLeft,
    OptionsNotWritten,
    OptionsAtNoLine,
    OptionsFirst,
    TakeOfStart,
    TakeOptionsOfStart,
    TakeWithoutLast,
    TakeChanges,
    /// A refused taking leaves zeros.
    TakeClears,
    /// The session is looked at before the sizes.
    SizesLast,
    LongerSessionTaken,
    ShortScratchTaken,
    AnyNumbersTaken,
    ScratchLeft,
    ScratchLeftOnRefusal,
    /// One word of a taking's table, counted from the last.
    Word {
        place: usize,
        back: usize,
    },
    /// A taking's table is left as it was on a refusal.
    LeftOnRefusal(usize),
    /// A byte beside a table of a call is written: -1 is the byte before it, 0 the one after.
    Beside {
        place: usize,
        offset: isize,
    },
    /// The same of a taking.
    BesideTaken {
        place: usize,
        offset: isize,
    },
    TextChanged,
}

thread_local! {
    static FAULT: Cell<Fault> = const { Cell::new(Fault::None) };
    /// The deck of the last start.
    static STARTED: RefCell<Vec<u8>> = const { RefCell::new(Vec::new()) };
    static LAST: RefCell<Option<Run>> = const { RefCell::new(None) };
}

/// The stand-in with a fault, which it has in this thread until another is asked for.
#[must_use]
pub fn erring(fault: Fault) -> Library {
    FAULT.set(fault);
    STARTED.take();
    Library {
        start,
        add,
        strike,
        options,
        take,
        clausify,
    }
}

type Place = (*mut u8, usize);

/// # Safety
/// The place has its bytes, which may be written, and nobody else uses them; that of 0 bytes may be none.
unsafe fn slice<'a>((place, len): Place) -> &'a mut [u8] {
    if len == 0 {
        return &mut [];
    }
    // SAFETY: as the caller has it.
    unsafe { std::slice::from_raw_parts_mut(place, len) }
}

macro_rules! of_text {
    ($name:ident, $call:ident) => {
        unsafe extern "C" fn $name(
            text: *const u8,
            text_len: usize,
            session: *mut u8,
            session_len: usize,
            scratch: *mut u8,
            scratch_len: usize,
        ) -> u64 {
            let text = (text.cast_mut(), text_len);
            let places = [text, (session, session_len), (scratch, scratch_len)];
            // SAFETY: each place has its bytes, and the text is lent from a buffer that may be written.
            unsafe {
                let call = Call::$call(slice(text).to_vec());
                called(&call, places)
            }
        }
    };
}

macro_rules! of_number {
    ($name:ident, $call:ident) => {
        unsafe extern "C" fn $name(
            number: u32,
            session: *mut u8,
            session_len: usize,
            scratch: *mut u8,
            scratch_len: usize,
        ) -> u64 {
            let mut none = 0;
            let places = [
                (&raw mut none, 0),
                (session, session_len),
                (scratch, scratch_len),
            ];
            // SAFETY: each place has its bytes.
            unsafe { called(&Call::$call(number), places) }
        }
    };
}

of_text!(start, Start);
of_text!(add, Add);
of_number!(strike, Strike);
of_number!(options, Options);

/// # Safety
/// Each place has its bytes, which may be written.
unsafe fn called(call: &Call, places: [Place; 3]) -> u64 {
    let fault = FAULT.get();
    // SAFETY: as the caller has it.
    let [text, session, scratch] = unsafe { places.map(|place| slice(place)) };
    if fault == Fault::TextChanged
        && let Some(byte) = text.first_mut()
    {
        *byte ^= 1;
    }
    let reply = written(call, session, scratch.len(), fault);
    if !(fault == Fault::ScratchLeft && reply == 0
        || fault == Fault::ScratchLeftOnRefusal && reply != 0)
    {
        scratch.fill(0);
    }
    if let Fault::Beside { place, offset } = fault
        && places[place].1 > 0
    {
        // SAFETY: the buffers that are lent from have bytes on both sides.
        unsafe { spoil_beside(places[place], offset) };
    }
    reply
}

/// # Safety
/// There are bytes on both sides of the place.
unsafe fn spoil_beside((place, len): Place, offset: isize) {
    let beside = if offset < 0 {
        place.wrapping_offset(offset)
    } else {
        place.wrapping_add(len).wrapping_offset(offset)
    };
    // SAFETY: as the caller has it.
    unsafe { *beside ^= 1 };
}

/// Writes a session's table as a call but a taking leaves it, and replies.
fn written(call: &Call, session: &mut [u8], scratch: usize, fault: Fault) -> u64 {
    let before = session.to_vec();
    let is_start = matches!(call, Call::Start(_));
    let fits = fits(call, session.len(), scratch, None, fault);
    let did = match fits {
        true => wrong::did(call, &before, fault),
        false => wrong::misfit(call, &before, fault),
    };
    match did {
        Ok(text) => {
            if is_start {
                STARTED.replace(text.clone());
            }
            let table = wrong::table(&before, &text, is_start, fault);
            let len = session.len().min(table.len());
            session[..len].copy_from_slice(&table[..len]);
            0
        }
        Err(refusal) => {
            wrong::refused(call, session, fits, fault);
            err(Outcome::from(refusal).reply, fault)
        }
    }
}

fn err(reply: u64, fault: Fault) -> u64 {
    match fault {
        Fault::OtherNumber => reply ^ 1 << 32,
        Fault::OtherLine => reply ^ 1,
        Fault::Accepts => 0,
        _ => reply,
    }
}

/// Whether no size is refused.
fn fits(
    call: &Call,
    session: usize,
    scratch: usize,
    answer: Option<[usize; 4]>,
    fault: Fault,
) -> bool {
    let scratch = match fault {
        Fault::ShortScratchTaken => SCRATCH,
        _ => scratch,
    };
    let longer =
        fault == Fault::LongerSessionTaken && session > SESSION && !matches!(call, Call::Start(_));
    let answer = answer.is_none_or(|[clauses, atoms, deferrals, numbers]| {
        let numbers = match fault {
            Fault::AnyNumbersTaken => 40,
            _ => numbers,
        };
        Sizes([clauses, atoms, deferrals, numbers, scratch])
            .rooms()
            .is_some()
    });
    (session == SESSION || longer) && scratch >= SCRATCH && answer
}

unsafe extern "C" fn take(
    session: *const u8,
    session_len: usize,
    clauses: *mut u8,
    clauses_len: usize,
    atoms: *mut u8,
    atoms_len: usize,
    deferrals: *mut u8,
    deferrals_len: usize,
    numbers: *mut u8,
    numbers_len: usize,
    scratch: *mut u8,
    scratch_len: usize,
) -> u64 {
    let fault = FAULT.get();
    let places = [
        (clauses, clauses_len),
        (atoms, atoms_len),
        (deferrals, deferrals_len),
        (numbers, numbers_len),
        (scratch, scratch_len),
    ];
    // SAFETY: each place has its bytes, and the session is lent from a buffer that may be written.
    let (session, tables) = unsafe {
        let session = slice((session.cast_mut(), session_len));
        (session, places.map(|place| slice(place)))
    };
    let sizes = [clauses_len, atoms_len, deferrals_len, numbers_len];
    let outcome = taken(session, sizes, scratch_len, fault);
    fill(tables, &outcome, fault);
    match fault {
        Fault::TakeChanges => session.last_mut().into_iter().for_each(|byte| *byte ^= 1),
        Fault::TakeClears if outcome.reply != 0 => session.fill(0),
        // SAFETY: the buffers that are lent from have bytes on both sides.
        Fault::BesideTaken { place, offset } => unsafe { spoil_beside(places[place], offset) },
        _ => {}
    }
    match outcome.reply {
        0 => 0,
        reply => err(reply, fault),
    }
}

/// What a taking of a session's table leaves.
fn taken(session: &[u8], sizes: [usize; 4], scratch: usize, fault: Fault) -> Outcome {
    let call = Call::Take(sizes);
    let did = if fits(&call, session.len(), scratch, Some(sizes), fault) {
        wrong::did(&call, session, fault)
    } else {
        Err(NO_SESSION)
    };
    let mut outcome = did.map_or_else(Outcome::from, |text| of_run(&text, sizes));
    if let Fault::Word { place, back } = fault
        && let Some(word) = outcome.words[place].iter_mut().rev().nth(back)
    {
        *word ^= 1 << (back % 32);
    }
    outcome
}

unsafe extern "C" fn clausify(
    deck: *const u8,
    deck_len: usize,
    clauses: *mut u8,
    clauses_len: usize,
    atoms: *mut u8,
    atoms_len: usize,
    deferrals: *mut u8,
    deferrals_len: usize,
    numbers: *mut u8,
    numbers_len: usize,
    scratch: *mut u8,
    scratch_len: usize,
) -> u64 {
    let places = [
        (clauses, clauses_len),
        (atoms, atoms_len),
        (deferrals, deferrals_len),
        (numbers, numbers_len),
        (scratch, scratch_len),
    ];
    // SAFETY: each place has its bytes.
    let (deck, tables) = unsafe {
        let deck = slice((deck.cast_mut(), deck_len)).to_vec();
        (deck, places.map(|place| slice(place)))
    };
    let sizes = [clauses_len, atoms_len, deferrals_len, numbers_len];
    let outcome = of_run(&deck, sizes);
    fill(tables, &outcome, Fault::None);
    outcome.reply
}

/// Leaves an outcome's records and then zeros.
fn fill(tables: [&mut [u8]; 5], outcome: &Outcome, fault: Fault) {
    let is_refusal = outcome.reply != 0;
    for (place, table) in tables.into_iter().enumerate() {
        let is_left = match (place, is_refusal) {
            (4, false) => fault == Fault::ScratchLeft,
            (4, true) if fault == Fault::ScratchLeftOnRefusal => true,
            (_, true) => fault == Fault::LeftOnRefusal(place),
            _ => false,
        };
        if is_left {
            continue;
        }
        let records = bytes(&outcome.words[place]);
        table.fill(0);
        let len = records.len().min(table.len());
        table[..len].copy_from_slice(&records[..len]);
    }
}

/// A deck, the tables' bytes, and what came of it.
type Run = (Vec<u8>, [usize; 4], Outcome);

/// The original's answer; the last one is kept, since it is asked for again.
fn of_run(deck: &[u8], sizes: [usize; 4]) -> Outcome {
    let [clauses, atoms, deferrals, _] = sizes;
    let sizes = [clauses, atoms, deferrals, 40];
    if let Err(refusal) = deck::read(deck) {
        return Outcome::from(refusal);
    }
    if let Some((last, lent, outcome)) = LAST.take()
        && last == deck
        && lent == sizes
    {
        LAST.set(Some((last, lent, outcome.clone())));
        return outcome;
    }
    let outcome = answer(deck, sizes);
    LAST.set(Some((deck.to_vec(), sizes, outcome.clone())));
    outcome
}

/// The first word of a table, and the text that it says, if there is so much.
fn text_of(table: &[u8]) -> Option<&[u8]> {
    let (length, rest) = table.split_first_chunk::<WORD>()?;
    rest.get(..u32::from_le_bytes(*length) as usize)
}

/// A session's text where it is held.
fn held(table: &[u8]) -> Option<Vec<u8>> {
    Session::held(table).map(|session| session.text())
}

/// A table of zeros.
fn is_zero(table: &[u8]) -> bool {
    lent::first_not_zero(table).is_none()
}

/// A text's table with another length.
fn stored_short(text: &[u8]) -> Vec<u8> {
    let mut table = stored(text);
    let length = u32::try_from(text.len()).expect("a deck's") - 1;
    table[..WORD].copy_from_slice(&length.to_le_bytes());
    table
}
