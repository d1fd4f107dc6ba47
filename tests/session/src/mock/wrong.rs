//! Wrong sessions: the second reading, with one thing changed.

use deck::Refusal;
use deck::limits::{AXIOMS, DECK_BYTES, OPTIONS};
use deck::read::numbers;
use deck::write::row;
use lent::SESSION;

use super::{Fault, STARTED, held, is_zero, stored_short, text_of};
use crate::second::{AXIOM_KINDS, NO_SESSION, NOT_LIVE, Session, TOO_LONG, stored};
use crate::steps::Call;

type Did = Result<Vec<u8>, Refusal>;

fn refusal(number: u32, line: u32) -> Refusal {
    Refusal { number, line }
}

/// The live deck that a call leaves, or of a taking the one that is run.
pub fn did(call: &Call, table: &[u8], fault: Fault) -> Did {
    if let Call::Start(deck) = call {
        if fault == Fault::StartOnce && held(table).is_some() {
            return Err(NO_SESSION);
        }
        return Session::start(deck).map(|session| session.text());
    }
    let live = live(table, fault).map_err(|refused| instead(call, refused, fault))?;
    match call {
        Call::Start(_) => unreachable!("it is done"),
        Call::Add(text) => added(&live, text, fault),
        Call::Strike(line) => struck(&live, *line, fault),
        Call::Options(options) => optioned(&live, *options, fault),
        Call::Take(_) => Ok(taken(live, fault)),
    }
}

/// What a call of a wrong size is refused by.
pub fn misfit(call: &Call, table: &[u8], fault: Fault) -> Did {
    if fault != Fault::SizesLast {
        return Err(NO_SESSION);
    }
    let mut whole = table.to_vec();
    whole.resize(SESSION, 0);
    Err(did(call, &whole, fault).err().unwrap_or(NO_SESSION))
}

/// The live deck of a table.
fn live(table: &[u8], fault: Fault) -> Did {
    let good = held(table);
    if let Some(good) = good {
        return Ok(good);
    }
    let text = text_of(table);
    let is_deck = |text: &&[u8]| deck::read(text).is_ok();
    let of_text = match fault {
        Fault::ZerosAreThree if is_zero(table) => return Err(refusal(3, 1)),
        Fault::TailNotLookedAt | Fault::LongerSessionTaken => text.filter(is_deck),
        Fault::LastByteNotLookedAt => {
            let mut other = table.to_vec();
            other.last_mut().into_iter().for_each(|byte| *byte = 0);
            return held(&other).ok_or(NO_SESSION);
        }
        Fault::TextNotLookedAt => text.filter(|text| text.len() <= DECK_BYTES),
        Fault::HeaderLookedAt => text.filter(|text| {
            let header = text.split_inclusive(|&byte| byte == b'\n').next();
            header.is_some_and(|header| deck::read(header).is_ok())
        }),
        _ => None,
    };
    of_text.map(<[u8]>::to_vec).ok_or(NO_SESSION)
}

/// Another refusal than 1 where there is no session.
fn instead(call: &Call, refused: Refusal, fault: Fault) -> Refusal {
    match (call, fault) {
        (Call::Strike(_), Fault::NotLiveFirst) => NOT_LIVE,
        (Call::Options(options), Fault::OptionsFirst) if *options > OPTIONS => refusal(4, 1),
        _ => refused,
    }
}

fn lines(text: &[u8]) -> Vec<Vec<u8>> {
    let lines = text.split_inclusive(|&byte| byte == b'\n');
    lines.map(<[u8]>::to_vec).collect()
}

fn is_axiom(line: &[u8]) -> bool {
    let kind = numbers(line).and_then(|numbers| numbers.first().copied());
    kind.is_some_and(|kind| AXIOM_KINDS.contains(&kind))
}

/// The first axiom's place in a deck's lines, or that behind the last.
fn first_axiom(lines: &[Vec<u8>]) -> usize {
    let first = lines.iter().position(|line| is_axiom(line));
    first.unwrap_or(lines.len())
}

fn added(live: &[u8], text: &[u8], fault: Fault) -> Did {
    let session = match Session::start(live) {
        Ok(session) => session,
        Err(_) => return deck::read(live).map(|_| Vec::new()),
    };
    let whole = [live, text].concat();
    match session.add(text) {
        Ok(session) => placed(&session.text(), live, fault),
        Err(refused) => {
            let other = more(refused, live, text, fault);
            if other {
                return Ok(whole);
            }
            Err(otherwise(refused, &session, text, fault))
        }
    }
}

/// Where the line that may be added comes to stand.
fn placed(whole: &[u8], live: &[u8], fault: Fault) -> Did {
    let mut lines = lines(whole);
    let (first, last) = (first_axiom(&lines), lines.len() - 1);
    match fault {
        Fault::AddBehindFirst if first < last => {
            let line = lines.remove(last);
            lines.insert(first + 1, line);
        }
        Fault::AddBeforeLast if first < last => lines.swap(last - 1, last),
        Fault::LengthOneLimitLess if whole.len() == DECK_BYTES => return Err(TOO_LONG),
        Fault::LastAxiomLimitLess if last - first + 1 == AXIOMS => {
            let line = u32::try_from(self::lines(live).len()).expect("a deck's lines") + 1;
            return Err(refusal(4, line));
        }
        _ => {}
    }
    Ok(lines.concat())
}

/// Whether a text that is refused is added all the same.
fn more(refused: Refusal, live: &[u8], text: &[u8], fault: Fault) -> bool {
    let is_deck = deck::read(&[live, text].concat()).is_ok();
    let lines = lines(live);
    let has_axiom = first_axiom(&lines) < lines.len();
    match fault {
        Fault::ConceptTaken => refused.number == 3 && !text.is_empty() && !has_axiom && is_deck,
        Fault::TwoLinesTaken => refused.number == 3 && self::lines(text).len() > 1 && is_deck,
        Fault::MoreAxiomsTaken => {
            refused.number == 4 && lines.len() - first_axiom(&lines) == AXIOMS
        }
        Fault::LongListsTaken => refused.number == 4 && lines.len() - first_axiom(&lines) < AXIOMS,
        Fault::NamesNotAsked => refused.number == 5,
        _ => false,
    }
}

/// Another refusal of an addition.
fn otherwise(refused: Refusal, session: &Session, text: &[u8], fault: Fault) -> Refusal {
    let line = session.lines() + 1;
    let Refusal { number, line: told } = refused;
    match fault {
        Fault::TwoAndThreeTurned if told > 0 && (number == 2 || number == 3) => {
            refusal(5 - number, told)
        }
        Fault::TooLongAtLine if refused == TOO_LONG => refusal(2, line),
        Fault::TooLongLast if refused == TOO_LONG => {
            let first = text.split_inclusive(|&byte| byte == b'\n').next();
            let first = first.unwrap_or_default();
            match numbers(first) {
                None => refusal(2, line),
                Some(_) if first.len() < text.len() || !is_axiom(first) => refusal(3, line),
                Some(_) => refused,
            }
        }
        Fault::EmptyIsTwo if text.is_empty() => refusal(2, line),
        Fault::AddedLineLess if told > 0 => refusal(number, told - 1),
        _ => refused,
    }
}

fn struck(live: &[u8], line: u32, fault: Fault) -> Did {
    let mut lines = lines(live);
    let first = first_axiom(&lines);
    let mut place = (line as usize).wrapping_sub(1);
    match fault {
        Fault::StrikeFromAxioms => place = place.wrapping_add(first),
        Fault::LastNotLive if place == lines.len() - 1 => return Err(NOT_LIVE),
        Fault::FirstNotLive if place == first => return Err(NOT_LIVE),
        _ => {}
    }
    let is_struck = match fault {
        Fault::AnyLineStruck => place > 0 && place < lines.len(),
        _ => place >= first && place < lines.len(),
    };
    if !is_struck {
        return Err(match fault {
            Fault::NotLiveAtLine => refusal(15, line),
            _ => NOT_LIVE,
        });
    }
    let next = place + 1;
    let gone = match fault {
        Fault::NextStruck if next < lines.len() => next,
        _ => place,
    };
    lines.remove(gone);
    Ok(lines.concat())
}

fn optioned(live: &[u8], options: u32, fault: Fault) -> Did {
    let most = match fault {
        Fault::OptionsLimitOneMore => OPTIONS + 1,
        Fault::OptionsLimitOneLess => OPTIONS - 1,
        _ => OPTIONS,
    };
    if options > most {
        return Err(match fault {
            Fault::OptionsAtNoLine => refusal(4, 0),
            _ => refusal(4, 1),
        });
    }
    let mut lines = lines(live);
    let mut header = numbers(&lines[0]).expect("a header");
    match fault {
        Fault::OptionsInRoles => header[3] = options,
        Fault::OptionsNotWritten => {}
        _ => header[4] = options,
    }
    let mut line = Vec::new();
    row(&mut line, &header);
    if fault == Fault::OptionsLeft {
        // The number's last digit in its first column but one.
        let end = line.len() - 1;
        line.swap(end - 10, end - 1);
    }
    lines[0] = line;
    Ok(lines.concat())
}

/// The deck that is run.
fn taken(live: Vec<u8>, fault: Fault) -> Vec<u8> {
    let started = STARTED.with_borrow(Vec::clone);
    match fault {
        Fault::TakeOfStart if !started.is_empty() => started,
        Fault::TakeOptionsOfStart if !started.is_empty() => {
            let header = numbers(&lines(&started)[0]).expect("a header");
            let session = Session::start(&live).expect("a live deck");
            let other = session.options(header[4]).expect("a deck's options");
            other.text()
        }
        Fault::TakeWithoutLast => {
            let mut lines = lines(&live);
            if lines.last().is_some_and(|line| is_axiom(line)) {
                lines.pop();
            }
            lines.concat()
        }
        _ => live,
    }
}

/// The table of a live deck, over the one that there was.
pub fn table(before: &[u8], text: &[u8], is_start: bool, fault: Fault) -> Vec<u8> {
    let mut table = match fault {
        Fault::LengthOneLess => stored_short(text),
        _ => stored(text),
    };
    let is_left = match fault {
        Fault::StartNotCleared => is_start,
        Fault::StruckNotCleared => !is_start,
        _ => false,
    };
    let end = 4 + text.len();
    if is_left && end < table.len() && before.len() == table.len() {
        table[end..].copy_from_slice(&before[end..]);
    }
    table
}

/// Leaves what a refused call leaves of the session's table.
pub fn refused(call: &Call, session: &mut [u8], fits: bool, fault: Fault) {
    match call {
        Call::Start(_) => {
            let is_left = match fault {
                Fault::StartLeaves => fits,
                Fault::StartLeavesAtSizes => !fits,
                _ => false,
            };
            if !is_left {
                session.fill(0);
            }
        }
        Call::Add(text) => match (fault, held(session)) {
            (Fault::RefusedTextLeft, Some(live)) => {
                let room = &mut session[4 + live.len()..];
                let len = room.len().min(text.len());
                room[..len].copy_from_slice(&text[..len]);
            }
            (Fault::RefusedCleared, Some(_)) => session.fill(0),
            _ => {}
        },
        _ => {}
    }
}
