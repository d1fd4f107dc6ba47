//! A stand-in for the proved library, of the same signature: it answers from the original, and errs where it is told to.

use std::cell::Cell;

use deck::limits::OPTIONS;
use lent::{Clausify, bytes};
use oracle::following::{Inverses, respelled_as};
use oracle::{Answer, Limits, answer_min_zero, follows_roles};

use crate::call::Sizes;
use crate::outcome::Outcome;
use crate::sizes::WRONG;

/// Where the stand-in errs. A place is one of the five tables: clauses, atoms, deferrals, numbers, scratch.
#[derive(Clone, Copy, Debug, PartialEq, Eq)]
pub enum Fault {
    None,
    /// Not a fault: their order is free.
    DeferralsTurned,
    OtherNumber,
    OtherLine,
    /// Answers 0 on a refusal.
    Accepts,
    /// Answers 12 where a deck is accepted.
    Refuses,
    ClausesSwapped,
    /// One word of a table's records, counted from the last.
    Word {
        place: usize,
        back: usize,
    },
    DeferralLost,
    /// One deferral in the place of another.
    DeferralTwice,
    /// The last byte behind the records is left as it was.
    Behind(usize),
    /// A table is left as it was on a refusal.
    LeftOnRefusal(usize),
    /// A byte beside a table is written: -1 is the byte before it, 0 the one after.
    Beside {
        place: usize,
        offset: isize,
    },
    BesideDeck(isize),
    DeckChanged,
    /// Sizes that are wrong in this way are taken for good.
    TakesWrongSize(usize),
    OneVisitLess,
    /// A table ends one record early.
    OneRecordLess(usize),
    /// Option 1, 2, 4 or 8 is not looked at.
    OptionIgnored(u32),
    /// With option 8 a role takes two steps at most.
    TwoSteps,
    /// With option 8 a role's steps do not turn.
    NotTurned,
}

thread_local! {
    static FAULT: Cell<Fault> = const { Cell::new(Fault::None) };
}

/// The stand-in with a fault, which it has in this thread until another is asked for.
pub fn erring(fault: Fault) -> Clausify {
    FAULT.set(fault);
    clausify
}

/// What is lent to a call.
struct Lent<'a> {
    deck: &'a mut [u8],
    tables: [&'a mut [u8]; 5],
}

unsafe extern "C" fn clausify(
    deck: *const u8,
    deck_len: usize,
    clauses: *mut u8,
    clauses_len: usize,
    atoms: *mut u8,
    atoms_len: usize,
    deferrals: *mut u8,
    deferrals_len: usize,
    numbers: *mut u8,
    numbers_len: usize,
    scratch: *mut u8,
    scratch_len: usize,
) -> u64 {
    let places = [
        (clauses, clauses_len),
        (atoms, atoms_len),
        (deferrals, deferrals_len),
        (numbers, numbers_len),
        (scratch, scratch_len),
    ];
    // SAFETY: each place has its bytes, and the deck is lent from a buffer that may be written.
    let lent = unsafe {
        Lent {
            deck: std::slice::from_raw_parts_mut(deck.cast_mut(), deck_len),
            tables: places.map(|(place, len)| std::slice::from_raw_parts_mut(place, len)),
        }
    };
    let fault = FAULT.get();
    let reply = answer(lent, fault);
    // SAFETY: the buffers that are lent from have bytes on both sides.
    unsafe {
        match fault {
            Fault::Beside { place, offset } => spoil_beside(places[place], offset),
            Fault::BesideDeck(offset) => spoil_beside((deck.cast_mut(), deck_len), offset),
            _ => {}
        }
    }
    reply
}

/// # Safety
/// There are bytes on both sides of the place.
unsafe fn spoil_beside((place, len): (*mut u8, usize), offset: isize) {
    let beside = if offset < 0 {
        place.wrapping_offset(offset)
    } else {
        place.wrapping_add(len).wrapping_offset(offset)
    };
    // SAFETY: as the caller has it.
    unsafe { *beside ^= 1 };
}

fn answer(mut lent: Lent, fault: Fault) -> u64 {
    let sizes = Sizes([0, 1, 2, 3, 4].map(|place| lent.tables[place].len()));
    let mut expected = match rooms(sizes, fault) {
        Some(rooms) => original(lent.deck, rooms, fault),
        None => refused(1, 0),
    };
    if fault == Fault::DeckChanged && !lent.deck.is_empty() {
        lent.deck[0] ^= 1;
    }
    err(&mut expected, fault);
    let is_refusal = expected.reply != 0;
    for place in 0..5 {
        if fault == Fault::LeftOnRefusal(place) && is_refusal {
            continue;
        }
        let records = bytes(&expected.words[place]);
        let table = &mut lent.tables[place];
        let kept = if fault == Fault::Behind(place) && table.len() > records.len() {
            table.last().copied()
        } else {
            None
        };
        table.fill(0);
        let len = records.len().min(table.len());
        table[..len].copy_from_slice(&records[..len]);
        if let (Some(byte), Some(last)) = (kept, table.last_mut()) {
            *last = byte;
        }
    }
    expected.reply
}

/// The records that there is room for, or `None` for refusal 1.
fn rooms(sizes: Sizes, fault: Fault) -> Option<[usize; 3]> {
    let Fault::TakesWrongSize(wrong) = fault else {
        let mut rooms = sizes.rooms()?;
        if let Fault::OneRecordLess(place) = fault {
            rooms[place] = rooms[place].saturating_sub(1);
        }
        return Some(rooms);
    };
    // As if this one size were right.
    let mut mended = sizes;
    let table = match WRONG[wrong] {
        "part of a clause" | "a clause too many" => 0,
        "part of an atom" | "an atom too many" => 1,
        "part of a deferral" | "a deferral too many" => 2,
        "no scratch" | "scratch one byte short" | "scratch far too short" => 4,
        _ => 3,
    };
    mended.0[table] = match table {
        3 => 40,
        4 => lent::SCRATCH,
        _ => lent::RECORDS[table] * (mended.0[table] / lent::RECORDS[table]).min(65_536),
    };
    mended.rooms()
}

fn refused(number: u32, line: u32) -> Outcome {
    Outcome::from(deck::Refusal { number, line })
}

fn original(deck: &[u8], rooms: [usize; 3], fault: Fault) -> Outcome {
    let mut limits = Limits::tables(rooms);
    let mut deck = deck.to_vec();
    match fault {
        Fault::OneVisitLess => limits.visits -= 1,
        Fault::OptionIgnored(bit) => ignore(&mut deck, bit),
        Fault::TwoSteps => follow(&mut deck, in_one_step),
        Fault::NotTurned => follow(&mut deck, not_turned),
        _ => {}
    }
    match answer_min_zero(&deck, &limits) {
        Answer::Accepted(listing) => Outcome::from(&listing),
        Answer::Refused(refusal) => Outcome::from(refusal),
        Answer::CannotHold => unreachable!("Min 0 lines are held"),
    }
}

/// Takes the option out of the header, if it has options there.
fn ignore(deck: &mut [u8], bit: u32) {
    let Some(field) = deck.get_mut(44..55) else {
        return;
    };
    let text = std::str::from_utf8(field).unwrap_or_default();
    if let Ok(options @ 0..=OPTIONS) = text.trim_start().parse::<u32>() {
        let others = format!("{:>11}", options & !bit);
        field.copy_from_slice(others.as_bytes());
    }
}

/// Has a deck with option 8 its roles spelled as told, and not followed further than by the original's step.
fn follow(text: &mut Vec<u8>, ends: fn(&Inverses, u32) -> Vec<u32>) {
    if let Ok(deck) = deck::read(text)
        && follows_roles(&deck)
    {
        let ends = ends(&Inverses::declared(&deck), deck.roles);
        *text = deck::write(&respelled_as(&deck, &ends));
    }
}

fn in_one_step(map: &Inverses, roles: u32) -> Vec<u32> {
    let step = |id| map.value(id).unwrap_or(2 * id);
    (0..roles).flat_map(|id| [step(id), step(id) ^ 1]).collect()
}

fn not_turned(map: &Inverses, roles: u32) -> Vec<u32> {
    let ends = map.ends(roles).into_iter();
    ends.zip(0..)
        .map(|(end, code)| (end & !1) + code % 2)
        .collect()
}

/// Makes the answer a wrong one.
fn err(expected: &mut Outcome, fault: Fault) {
    let is_refusal = expected.reply != 0;
    let [clauses, _, deferrals, ..] = &mut expected.words;
    match fault {
        Fault::OtherNumber if is_refusal => expected.reply ^= 1 << 32,
        Fault::OtherLine if is_refusal => expected.reply ^= 1,
        Fault::Accepts => expected.reply = 0,
        Fault::Refuses if !is_refusal => *expected = refused(12, 0),
        Fault::DeferralsTurned => deferrals.as_chunks_mut::<2>().0.reverse(),
        Fault::ClausesSwapped => clauses.as_chunks_mut::<3>().0.reverse(),
        Fault::DeferralLost => deferrals.truncate(deferrals.len().saturating_sub(2)),
        Fault::DeferralTwice => {
            if let [first, second, ..] = deferrals.as_chunks_mut::<2>().0 {
                *second = *first;
            }
        }
        Fault::Word { place, back } => {
            if let Some(word) = expected.words[place].iter_mut().rev().nth(back) {
                *word ^= 1 << (back % 32);
            }
        }
        _ => {}
    }
}
