//! A stand-in for the proved library, of the same signatures: it answers from the second evaluator, and errs where it is told to.

mod wrong;

use std::cell::Cell;

use deck::Refusal;
use lent::bytes;
use oracle::{Answer, Limits, answer_min_zero};

use crate::call::{Library, Sizes};
use crate::outcome::Outcome;
use crate::second::read::Rule;
use crate::sizes::WRONG;
use crate::verdict::Test;

/// Where the stand-in errs. A place is one of the five tables: clauses, atoms, deferrals, store, scratch. A text is the deck, 0, or
/// the state, 1.
#[derive(Clone, Copy, Debug, PartialEq, Eq)]
pub enum Fault {
    None,
    /// Not a fault: their order is free.
    DeferralsTurned,
    OtherNumber,
    OtherLine,
    /// 2 where all holds.
    OtherReply,
    /// The store tells of something broken where all holds.
    ToldWhereHeld,
    /// Says 'holds' of every state.
    EveryStateHolds,
    /// Says 14 in place of a verdict.
    Refuses,
    /// Shows the greatest assignment that breaks it.
    Greatest,
    /// Names the last that is broken.
    Last,
    /// An axiom's number in place of its line.
    AxiomNumber,
    /// Passes over 32 to 36.
    ReadOnlySkipped,
    /// Reads 23 and 24 by unequal entries.
    EqualEntriesPass,
    /// Reads 31 by place.
    EqualCodesClash,
    InverseNotTurned,
    /// A fresh class without room in the store is taken for empty.
    EmptyBeyondTheRoom,
    FreshEmpty,
    FiveVariablesPass,
    /// 14 at the clause that is reached.
    WideWhereReached,
    WideBeforeState,
    StateBeforeRun,
    SizesLast,
    /// Reads states without a rule.
    Without(Rule),
    ClausesSwapped,
    /// One word of a table's records, counted from the last.
    Word {
        place: usize,
        back: usize,
    },
    DeferralLost,
    /// One deferral in the place of another.
    DeferralTwice,
    /// The last byte behind the records is left as it was.
    Behind(usize),
    /// A table is left as it was on a refusal.
    LeftOnRefusal(usize),
    /// A byte beside a table is written: -1 is the byte before it, 0 the one after.
    Beside {
        place: usize,
        offset: isize,
    },
    BesideText {
        text: usize,
        offset: isize,
    },
    TextChanged(usize),
    /// Sizes that are wrong in this way are taken for good.
    TakesWrongSize(usize),
    /// A table ends one record early.
    OneRecordLess(usize),
}

thread_local! {
    static FAULT: Cell<Fault> = const { Cell::new(Fault::None) };
}

/// The stand-in with a fault, which it has in this thread until another is asked for.
#[must_use]
pub fn erring(fault: Fault) -> Library {
    FAULT.set(fault);
    Library {
        axioms: try_axioms,
        clauses: try_clauses,
    }
}

/// What is lent to a call.
struct Lent<'a> {
    texts: [&'a mut [u8]; 2],
    tables: [&'a mut [u8]; 5],
}

macro_rules! entry {
    ($name:ident, $test:expr) => {
        unsafe extern "C" fn $name(
            deck: *const u8,
            deck_len: usize,
            state: *const u8,
            state_len: usize,
            clauses: *mut u8,
            clauses_len: usize,
            atoms: *mut u8,
            atoms_len: usize,
            deferrals: *mut u8,
            deferrals_len: usize,
            store: *mut u8,
            store_len: usize,
            scratch: *mut u8,
            scratch_len: usize,
        ) -> u64 {
            let texts = [(deck.cast_mut(), deck_len), (state.cast_mut(), state_len)];
            let tables = [
                (clauses, clauses_len),
                (atoms, atoms_len),
                (deferrals, deferrals_len),
                (store, store_len),
                (scratch, scratch_len),
            ];
            // SAFETY: each place has its bytes, and the texts are lent from buffers that may be written.
            unsafe { call($test, texts, tables) }
        }
    };
}

entry!(try_axioms, Test::Axioms);
entry!(try_clauses, Test::Clauses);

type Place = (*mut u8, usize);

/// # Safety
/// Each place has its bytes, which may be written.
unsafe fn call(test: Test, texts: [Place; 2], tables: [Place; 5]) -> u64 {
    // SAFETY: as the caller has it.
    let slice = |(place, len)| unsafe { std::slice::from_raw_parts_mut(place, len) };
    let lent = Lent {
        texts: texts.map(slice),
        tables: tables.map(slice),
    };
    let fault = FAULT.get();
    let reply = answer(test, lent, fault);
    // SAFETY: the buffers that are lent from have bytes on both sides.
    unsafe {
        match fault {
            Fault::Beside { place, offset } => spoil_beside(tables[place], offset),
            Fault::BesideText { text, offset } => spoil_beside(texts[text], offset),
            _ => {}
        }
    }
    reply
}

/// # Safety
/// There are bytes on both sides of the place.
unsafe fn spoil_beside((place, len): Place, offset: isize) {
    let beside = if offset < 0 {
        place.wrapping_offset(offset)
    } else {
        place.wrapping_add(len).wrapping_offset(offset)
    };
    // SAFETY: as the caller has it.
    unsafe { *beside ^= 1 };
}

fn answer(test: Test, mut lent: Lent, fault: Fault) -> u64 {
    let sizes = Sizes([0, 1, 2, 3, 4].map(|place| lent.tables[place].len()));
    let [deck, state] = lent.texts.each_ref().map(|text| text.to_vec());
    let mut expected = match rooms(sizes, fault) {
        Some(rooms) => judged(test, [&deck, &state], rooms, sizes.0[3], fault),
        None => refused(1, &deck, fault),
    };
    if let Fault::TextChanged(text) = fault
        && let Some(byte) = lent.texts[text].first_mut()
    {
        *byte ^= 1;
    }
    err(&mut expected, fault);
    let is_refusal = expected.refusal().is_some();
    for (place, table) in lent.tables.iter_mut().enumerate() {
        if fault == Fault::LeftOnRefusal(place) && is_refusal {
            continue;
        }
        let records = bytes(&expected.words[place]);
        let is_kept = fault == Fault::Behind(place) && table.len() > records.len();
        let kept = table.last().copied().filter(|_| is_kept);
        table.fill(0);
        let len = records.len().min(table.len());
        table[..len].copy_from_slice(&records[..len]);
        if let (Some(byte), Some(last)) = (kept, table.last_mut()) {
            *last = byte;
        }
    }
    expected.reply
}

/// Refusal 1, or where the sizes are looked at last, the deck's.
fn refused(number: u32, deck: &[u8], fault: Fault) -> Outcome {
    let own = Refusal { number, line: 0 };
    let deck = deck::read(deck).err();
    Outcome::from(match deck {
        Some(refusal) if fault == Fault::SizesLast => refusal,
        _ => own,
    })
}

/// The records that there is room for, or `None` for refusal 1.
fn rooms(sizes: Sizes, fault: Fault) -> Option<[usize; 3]> {
    let Fault::TakesWrongSize(wrong) = fault else {
        let mut rooms = sizes.rooms()?;
        if let Fault::OneRecordLess(place) = fault {
            rooms[place] = rooms[place].saturating_sub(1);
        }
        return Some(rooms);
    };
    // As if this one size were right.
    let mut mended = sizes;
    let table = match WRONG[wrong] {
        "part of a clause" | "a clause too many" => 0,
        "part of an atom" | "an atom too many" => 1,
        "part of a deferral" | "a deferral too many" => 2,
        "no store" | "store one byte short" | "store far too short" => 3,
        _ => 4,
    };
    mended.0[table] = match table {
        3 => lent::STORE,
        4 => lent::SCRATCH,
        _ => lent::RECORDS[table] * (mended.0[table] / lent::RECORDS[table]).min(65_536),
    };
    mended.rooms()
}

fn judged(
    test: Test,
    [deck, state]: [&[u8]; 2],
    rooms: [usize; 3],
    store: usize,
    fault: Fault,
) -> Outcome {
    if fault == Fault::StateBeforeRun
        && let Some(refusal) = wrong::bad_state(deck, state)
    {
        return Outcome::from(refusal);
    }
    let listing = match answer_min_zero(deck, &Limits::tables(rooms)) {
        Answer::Accepted(listing) => listing,
        Answer::Refused(refusal) => return Outcome::from(refusal),
        Answer::CannotHold => unreachable!("Min 0 lines are held"),
    };
    let deck = deck::read(deck).expect("it was accepted");
    let verdict = wrong::judge(test, &deck, &listing, state, store, fault);
    verdict.map_or_else(Outcome::from, |verdict| Outcome::told(&listing, &verdict))
}

/// Makes the answer a wrong one.
fn err(expected: &mut Outcome, fault: Fault) {
    let is_refusal = expected.refusal().is_some();
    let [clauses, _, deferrals, store, _] = &mut expected.words;
    match fault {
        Fault::OtherNumber if is_refusal => expected.reply ^= 1 << 32,
        Fault::OtherLine if is_refusal => expected.reply ^= 1,
        Fault::OtherReply if expected.reply == 0 => expected.reply = 2,
        Fault::ToldWhereHeld if expected.reply == 0 => store[10] = 2,
        Fault::EveryStateHolds if !is_refusal => {
            expected.reply = 0;
            store.truncate(10);
        }
        Fault::Refuses if !is_refusal => *expected = Outcome::from(crate::second::judge::WIDE),
        Fault::DeferralsTurned => deferrals.as_chunks_mut::<2>().0.reverse(),
        Fault::ClausesSwapped => clauses.as_chunks_mut::<3>().0.reverse(),
        Fault::DeferralLost => deferrals.truncate(deferrals.len().saturating_sub(2)),
        Fault::DeferralTwice => {
            if let [first, second, ..] = deferrals.as_chunks_mut::<2>().0 {
                *second = *first;
            }
        }
        Fault::Word { place, back } => {
            if let Some(word) = expected.words[place].iter_mut().rev().nth(back) {
                *word ^= 1 << (back % 32);
            }
        }
        _ => {}
    }
}
