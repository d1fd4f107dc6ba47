//! The calls: dirty tables of any size, anywhere, and what must stand there afterwards.

use std::ptr;

use deck::Refusal;
use deck::random::Random;
use entry::Outcome;
use lent::{Clausify, Lent, SessionNumber, SessionTake, SessionText, Tables};

use crate::steps::{Call, Step};

/// The entries of a session, and the one that each taking equals.
#[derive(Clone, Copy)]
pub struct Library {
    pub start: SessionText,
    pub add: SessionText,
    pub strike: SessionNumber,
    pub options: SessionNumber,
    pub take: SessionTake,
    pub clausify: Clausify,
}

#[cfg(feature = "linked")]
impl Library {
    /// The proved one.
    pub const PROVED: Self = Self {
        start: lent::gorvask_session_start,
        add: lent::gorvask_session_add,
        strike: lent::gorvask_session_strike,
        options: lent::gorvask_session_options,
        take: lent::gorvask_session_take,
        clausify: lent::gorvask_clausify_with_stats,
    };
}

/// What is lent, call after call.
pub struct Caller {
    text: Lent,
    session: Lent,
    scratch: Lent,
    answer: Tables,
    /// For the run of a live deck.
    run: Tables,
}

impl Default for Caller {
    fn default() -> Self {
        let tables = || Tables::new("the table of numbers");
        Self {
            text: Lent::default(),
            session: Lent::default(),
            scratch: Lent::default(),
            answer: tables(),
            run: tables(),
        }
    }
}

impl Caller {
    /// The reply of a step's call, on a session's table.
    pub fn make(&mut self, rng: &mut Random, library: &Library, step: &Step, table: &[u8]) -> u64 {
        self.session.lend_filled(rng, table);
        match &step.call {
            Call::Start(text) => self.of_text(rng, library.start, text, step.scratch),
            Call::Add(text) => self.of_text(rng, library.add, text, step.scratch),
            Call::Strike(line) => self.of_number(rng, library.strike, *line, step.scratch),
            Call::Options(options) => self.of_number(rng, library.options, *options, step.scratch),
            Call::Take(answer) => {
                self.answer.lend(rng, &sizes(answer, step.scratch));
                run(library.take, &mut self.session, &mut self.answer)
            }
        }
    }

    fn of_text(
        &mut self,
        rng: &mut Random,
        entry: SessionText,
        text: &[u8],
        scratch: usize,
    ) -> u64 {
        self.text.lend_filled(rng, text);
        self.scratch.lend(rng, scratch);
        // A text of 0 bytes needs no place.
        let place = if text.is_empty() && rng.chance(1, 2) {
            ptr::null()
        } else {
            self.text.pointer().cast_const()
        };
        // SAFETY: each place has its bytes, and nothing else is asked for.
        unsafe {
            entry(
                place,
                text.len(),
                self.session.pointer(),
                self.session.len(),
                self.scratch.pointer(),
                self.scratch.len(),
            )
        }
    }

    fn of_number(
        &mut self,
        rng: &mut Random,
        entry: SessionNumber,
        number: u32,
        scratch: usize,
    ) -> u64 {
        self.scratch.lend(rng, scratch);
        // SAFETY: as above.
        unsafe {
            entry(
                number,
                self.session.pointer(),
                self.session.len(),
                self.scratch.pointer(),
                self.scratch.len(),
            )
        }
    }

    /// What the call left of the session's table.
    #[must_use]
    pub fn session(&self) -> &[u8] {
        self.session.bytes()
    }

    /// How the call left another session than this one, no zeros in scratch, or something beside a table.
    #[must_use]
    pub fn difference(&self, step: &Step, session: &[u8]) -> Option<String> {
        session_difference(self.session.bytes(), session)
            .or_else(|| self.session.beside("the session"))
            .or_else(|| match &step.call {
                Call::Start(text) | Call::Add(text) => self
                    .text
                    .changed("the text", text)
                    .or_else(|| self.scratch_difference()),
                Call::Strike(_) | Call::Options(_) => self.scratch_difference(),
                Call::Take(_) => self.answer.beside(),
            })
    }

    fn scratch_difference(&self) -> Option<String> {
        let dirty = lent::first_not_zero(self.scratch.bytes());
        let told = |byte: usize| {
            let found = self.scratch.bytes()[byte];
            format!("byte {byte} of scratch is {found}, not 0")
        };
        dirty.map(told).or_else(|| self.scratch.beside("scratch"))
    }

    /// How a taking's tables have not these words and then zeros.
    #[must_use]
    pub fn answer_difference(&self, expected: &Outcome) -> Option<String> {
        self.answer.difference(&expected.words)
    }

    /// What a taking left in its tables.
    ///
    /// # Errors
    /// If something stands where it may not.
    pub fn taken(&self, reply: u64) -> Result<Outcome, String> {
        let mut left = Outcome {
            reply,
            ..Outcome::default()
        };
        if reply == 0 {
            let numbers = self.answer.own();
            let counted = |place: usize| numbers.get(place).map_or(0, |&count| count as usize);
            let [clauses, deferrals] = [0, 5].map(counted);
            left.words = self.answer.records(clauses, deferrals, numbers.len())?;
        }
        match self.answer_difference(&left) {
            Some(difference) => Err(difference),
            None => Ok(left),
        }
    }

    /// How a taking is not the run of this deck in tables of the same sizes, byte by byte.
    pub fn run_difference(
        &mut self,
        rng: &mut Random,
        library: &Library,
        reply: u64,
        step: &Step,
        deck: &[u8],
    ) -> Option<String> {
        let Call::Take(answer) = &step.call else {
            return None;
        };
        self.text.lend_filled(rng, deck);
        self.run.lend(rng, &sizes(answer, step.scratch));
        let asked = run(library.clausify, &mut self.text, &mut self.run);
        if reply != asked {
            let [told, asked] = [reply, asked].map(tell);
            return Some(format!(
                "the reply is {told}, and that of the live deck's run {asked}"
            ));
        }
        let mut pairs = self.answer.contents().into_iter().zip(self.run.contents());
        pairs.find_map(|((name, taken), (_, run))| table_difference(name, taken, run))
    }
}

/// Bytes of the five tables.
fn sizes(answer: &[usize; 4], scratch: usize) -> [usize; 5] {
    let [clauses, atoms, deferrals, numbers] = *answer;
    [clauses, atoms, deferrals, numbers, scratch]
}

fn run(entry: Clausify, input: &mut Lent, tables: &mut Tables) -> u64 {
    let [clauses, atoms, deferrals, numbers, scratch] = tables.places();
    // SAFETY: each place has its bytes, and nothing else is asked for.
    unsafe {
        entry(
            input.pointer(),
            input.len(),
            clauses.0,
            clauses.1,
            atoms.0,
            atoms.1,
            deferrals.0,
            deferrals.1,
            numbers.0,
            numbers.1,
            scratch.0,
            scratch.1,
        )
    }
}

/// A refusal as a reply.
#[must_use]
pub fn code(refusal: Refusal) -> u64 {
    Outcome::from(refusal).reply
}

/// A reply in words.
#[must_use]
pub fn tell(reply: u64) -> String {
    match (reply >> 32, reply & 0xffff_ffff) {
        (0, 0) => "done".into(),
        (number, line) => format!("({number}, {line})"),
    }
}

/// Bytes that are shown around one that differs.
const SHOWN: usize = 24;

fn around(bytes: &[u8], place: usize) -> String {
    let end = bytes.len().min(place + SHOWN);
    let begin = place.saturating_sub(SHOWN);
    format!("\"{}\"", bytes[begin..end].escape_ascii())
}

fn first_other(found: &[u8], expected: &[u8]) -> Option<usize> {
    let mut pairs = found.iter().zip(expected);
    pairs.position(|(found, expected)| found != expected)
}

fn session_difference(found: &[u8], expected: &[u8]) -> Option<String> {
    if found == expected {
        return None;
    }
    let place = first_other(found, expected)?;
    let [length, asked] = [found, expected].map(|table| {
        let word = table.first_chunk().copied();
        word.map_or(0, u32::from_le_bytes)
    });
    Some(format!(
        "byte {place} of the session is {}, not {} (its length {length}, not {asked}): {}, not {}",
        found[place],
        expected[place],
        around(found, place),
        around(expected, place)
    ))
}

fn table_difference(name: &str, taken: &[u8], run: &[u8]) -> Option<String> {
    if taken == run {
        return None;
    }
    let place = first_other(taken, run)?;
    Some(format!(
        "byte {place} of {name} is {}, and after the live deck's run {}",
        taken[place], run[place]
    ))
}
