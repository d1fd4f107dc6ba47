//! A stored run: what is called, and what the library leaves.

use std::io;

use deck::random::Random;
use deck::read::numbers;
use deck::write::row;
use lent::SESSION;

use crate::call::{Caller, Library};
use crate::diagnosed;
use crate::second::{WORD, stored};
use crate::steps::{Call, Change, Player, Step};

/// A size, a place or a length as a word.
fn word(size: usize) -> u32 {
    u32::try_from(size).expect("a word")
}

/// What a sample holds in a deck's place, step by step. Of a change: 60; 61 and a seed; 62 and a length; 63, place and byte; 64 and
/// the bytes of a text, which follows. Of a call a row with its kind, the bytes of the session and of scratch, and: 70 a deck's
/// bytes, the deck following; 71 a line's bytes, likewise; 72 a line; 73 options; 74 the bytes of the four tables.
#[must_use]
pub fn input<'a>(steps: impl IntoIterator<Item = &'a Step>) -> Vec<u8> {
    let mut out = Vec::new();
    for step in steps {
        write_change(&step.change, &mut out);
        let mut write = |kind: u32, rest: &[u32], text: &[u8]| {
            let sizes = [kind, word(step.session), word(step.scratch)];
            row(&mut out, &[&sizes, rest].concat());
            write_text(text, &mut out);
        };
        match &step.call {
            Call::Start(deck) => write(70, &[word(deck.len())], deck),
            Call::Add(line) => write(71, &[word(line.len())], line),
            Call::Strike(line) => write(72, &[*line], b""),
            Call::Options(options) => write(73, &[*options], b""),
            Call::Take(sizes) => write(74, &sizes.map(word), b""),
        }
    }
    out
}

fn write_change(change: &Change, out: &mut Vec<u8>) {
    match change {
        Change::None => {}
        Change::Zeros => row(out, &[60]),
        Change::Random(seed) => row(out, &[61, *seed]),
        Change::Length(length) => row(out, &[62, *length]),
        Change::Byte(place, byte) => row(out, &[63, *place, u32::from(*byte)]),
        Change::Text(text) => {
            row(out, &[64, word(text.len())]);
            write_text(text, out);
        }
    }
}

/// A text that does not end a line is followed by a line feed, so that the next row begins a line.
fn write_text(text: &[u8], out: &mut Vec<u8>) {
    out.extend_from_slice(text);
    if text.last().is_some_and(|&byte| byte != b'\n') {
        out.push(b'\n');
    }
}

/// What is still to be read.
struct Rest<'a>(&'a [u8]);

impl<'a> Rest<'a> {
    fn row(&mut self) -> Option<Vec<u32>> {
        let end = self.0.iter().position(|&byte| byte == b'\n')?;
        numbers(self.bytes(end + 1)?)
    }

    fn bytes(&mut self, length: usize) -> Option<&'a [u8]> {
        let (bytes, rest) = self.0.split_at_checked(length)?;
        self.0 = rest;
        Some(bytes)
    }

    fn text(&mut self, length: u32) -> Option<Vec<u8>> {
        let text = self.bytes(length as usize)?.to_vec();
        if text.last().is_some_and(|&byte| byte != b'\n') {
            self.bytes(1)?;
        }
        Some(text)
    }

    fn step(&mut self) -> Option<Step> {
        let mut row = self.row()?;
        let change = match row[..] {
            [60] => Change::Zeros,
            [61, seed] => Change::Random(seed),
            [62, length] => Change::Length(length),
            [63, place, byte] => Change::Byte(place, u8::try_from(byte).ok()?),
            [64, length] => Change::Text(self.text(length)?),
            _ => Change::None,
        };
        if change != Change::None {
            row = self.row()?;
        }
        let [kind, session, scratch, ref rest @ ..] = row[..] else {
            return None;
        };
        let call = match (kind, rest) {
            (70, &[length]) => Call::Start(self.text(length)?),
            (71, &[length]) => Call::Add(self.text(length)?),
            (72, &[line]) => Call::Strike(line),
            (73, &[options]) => Call::Options(options),
            (74, &[clauses, atoms, deferrals, numbers]) => {
                Call::Take([clauses, atoms, deferrals, numbers].map(|size| size as usize))
            }
            _ => return None,
        };
        Some(Step {
            change,
            session: session as usize,
            scratch: scratch as usize,
            call,
        })
    }
}

/// The steps of an input.
#[must_use]
pub fn steps(input: &[u8]) -> Option<Vec<Step>> {
    let mut rest = Rest(input);
    let mut steps = Vec::new();
    while !rest.0.is_empty() {
        steps.push(rest.step()?);
    }
    Some(steps)
}

/// Appends what a call left: 49, number and line, or 80; where the session's table is not as it was lent, 81, or 82, a length and the
/// text of a session; and of a taking the rows that `tests/entry` has.
pub fn write_left(reply: u64, lent: &[u8], left: &[u8], taken: &[u8], out: &mut Vec<u8>) {
    let [number, line] = [reply >> 32, reply & 0xffff_ffff];
    let [number, line] = [number, line].map(|half| u32::try_from(half).expect("a half"));
    match number {
        0 => row(out, &[80]),
        _ => row(out, &[49, number, line]),
    }
    out.extend_from_slice(taken);
    if left == lent {
        return;
    }
    if lent::first_not_zero(left).is_none() {
        row(out, &[81]);
        return;
    }
    row(out, &[82, word(left.len())]);
    write_table(left, out);
}

/// A table as its text where it holds one, or its bytes.
fn write_table(table: &[u8], out: &mut Vec<u8>) {
    let text = table
        .split_first_chunk::<WORD>()
        .and_then(|(length, rest)| {
            let text = rest.get(..u32::from_le_bytes(*length) as usize)?;
            (table.len() == SESSION && stored(text) == table).then_some(text)
        });
    match text {
        Some(text) => {
            row(out, &[83, word(text.len())]);
            write_text(text, out);
        }
        None => write_text(table, out),
    }
}

/// What the library leaves after each call, as text. The seed decides where the tables lie, and their dirt.
///
/// # Errors
/// If the input has another form, if something stands where it may not, or if the host's diagnosis is not the reply's.
pub fn answer(library: &Library, seed: u64, input: &[u8]) -> io::Result<Vec<u8>> {
    let steps = steps(input).ok_or(io::Error::other("no rows of calls"))?;
    let mut caller = Caller::default();
    let mut rng = Random::new(seed);
    let mut player = Player::default();
    let mut out = Vec::new();
    for (number, step) in (1..).zip(&steps) {
        let failed = |told: String| io::Error::other(format!("call {number}: {told}"));
        let table = player.lent(step);
        let reply = caller.make(&mut rng, library, step, &table);
        let left = caller.session().to_vec();
        let difference = caller
            .difference(step, &left)
            .or_else(|| diagnosed::difference(&player, step, &table, reply));
        if let Some(told) = difference {
            return Err(failed(told));
        }
        let taken = match step.call {
            Call::Take(_) => caller.taken(reply).map_err(failed)?.write(),
            _ => Vec::new(),
        };
        write_left(reply, &table, &left, &taken, &mut out);
        player.go_on(step, reply, &left);
    }
    Ok(out)
}
