//! Calls written by hand, each with its reply.

mod edges;
mod order;
mod tables;

use deck::write::row;

use crate::steps::{Call, Change, Step};

/// A run of calls, each with what it replies: number × 2^32 + line, 0 where it is done.
#[derive(Clone, Debug)]
pub struct Written {
    pub name: String,
    pub steps: Vec<(Step, u64)>,
}

impl Written {
    fn new(name: &str, steps: Vec<(Step, u64)>) -> Self {
        Self {
            name: name.into(),
            steps,
        }
    }
}

/// All of them.
#[must_use]
pub fn all() -> Vec<Written> {
    [edges::all(), order::all(), tables::all()].concat()
}

const DONE: u64 = 0;

/// A refusal's reply.
fn no(number: u64, line: u64) -> u64 {
    (number << 32) + line
}

/// A text: numbers, and a semicolon between two lines.
fn lines(text: &str) -> Vec<u8> {
    let mut out = Vec::new();
    for line in text.split(';') {
        let numbers: Result<Vec<u32>, _> = line.split_whitespace().map(str::parse).collect();
        row(&mut out, &numbers.expect("numbers"));
    }
    out
}

/// So many bytes, all of them lines that are broken.
fn broken(bytes: usize) -> Vec<u8> {
    let mut text = b"x\n".repeat(bytes / 2);
    text.resize(bytes, b'\n');
    text
}

type Called = (Step, u64);

fn start(deck: &str, reply: u64) -> Called {
    of(Call::Start(lines(deck)), reply)
}

fn add(line: &str, reply: u64) -> Called {
    of(Call::Add(lines(line)), reply)
}

fn add_text(text: &[u8], reply: u64) -> Called {
    of(Call::Add(text.to_vec()), reply)
}

fn strike(line: u32, reply: u64) -> Called {
    of(Call::Strike(line), reply)
}

fn options(options: u32, reply: u64) -> Called {
    of(Call::Options(options), reply)
}

/// A taking with room for so many clauses, and enough of the rest.
fn take_with(clauses: usize, reply: u64) -> Called {
    let sizes = [
        clauses * lent::CLAUSE,
        200 * lent::ATOM,
        8 * lent::DEFERRAL,
        40,
    ];
    of(Call::Take(sizes), reply)
}

fn take(reply: u64) -> Called {
    take_with(50, reply)
}

fn of(call: Call, reply: u64) -> Called {
    (Step::of(call), reply)
}

/// The call on a changed table.
fn on(change: Change, (step, reply): Called) -> Called {
    (Step { change, ..step }, reply)
}

/// The call with so many bytes of the session's table and of scratch.
fn sized(session: usize, scratch: usize, (step, reply): Called) -> Called {
    let step = Step {
        session,
        scratch,
        ..step
    };
    (step, reply)
}
