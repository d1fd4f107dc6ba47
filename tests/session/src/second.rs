//! The second reading: a session is its live deck's lines. It rests on the reading of decks in `tests/deck` alone.

use std::ops::RangeInclusive;

use deck::limits::DECK_BYTES;
use deck::read::numbers;
use deck::write::row;
use deck::{Deck, Refusal};
use lent::SESSION;

/// Bytes of a session's length.
pub const WORD: usize = 4;
/// The kinds of axiom lines.
pub const AXIOM_KINDS: RangeInclusive<u32> = 21..=36;

/// Sizes that do not fit, or bytes that are no session.
pub const NO_SESSION: Refusal = Refusal { number: 1, line: 0 };
/// The deck would be too long.
pub const TOO_LONG: Refusal = Refusal { number: 2, line: 0 };
/// The axiom to be struck is not live.
pub const NOT_LIVE: Refusal = Refusal {
    number: 15,
    line: 0,
};

/// The live deck's lines, each with its line feed.
#[derive(Clone, Debug, PartialEq, Eq)]
pub struct Session {
    lines: Vec<Vec<u8>>,
}

impl Session {
    /// The session that starts from a deck.
    ///
    /// # Errors
    /// The deck's own refusal.
    pub fn start(deck: &[u8]) -> Result<Self, Refusal> {
        deck::read(deck)?;
        let lines = deck.split_inclusive(|&byte| byte == b'\n');
        Ok(Self {
            lines: lines.map(<[u8]>::to_vec).collect(),
        })
    }

    /// The session that a table holds, if it holds one.
    #[must_use]
    pub fn held(table: &[u8]) -> Option<Self> {
        if table.len() != SESSION {
            return None;
        }
        let (length, rest) = table.split_first_chunk::<WORD>()?;
        let length = u32::from_le_bytes(*length) as usize;
        let (text, zeros) = rest.split_at_checked(length)?;
        if lent::first_not_zero(zeros).is_some() {
            return None;
        }
        Self::start(text).ok()
    }

    /// The live deck's bytes.
    #[must_use]
    pub fn text(&self) -> Vec<u8> {
        self.lines.concat()
    }

    /// The live deck.
    ///
    /// # Panics
    /// Never: what is no deck is refused.
    #[must_use]
    pub fn deck(&self) -> Deck {
        deck::read(&self.text()).expect("a live deck is read")
    }

    /// Each line of the live deck, from 1, with its kind.
    pub fn kinds(&self) -> impl Iterator<Item = (u32, u32)> {
        (1..).zip(self.lines.iter().map(|line| kind(line)))
    }

    /// How many lines the live deck has.
    ///
    /// # Panics
    /// Never: a deck has few.
    #[must_use]
    pub fn lines(&self) -> u32 {
        u32::try_from(self.lines.len()).expect("a deck's lines")
    }

    /// The table that holds the session.
    #[must_use]
    pub fn table(&self) -> Vec<u8> {
        stored(&self.text())
    }

    /// One axiom more, the last one.
    ///
    /// # Errors
    /// 2 to 5.
    pub fn add(&self, text: &[u8]) -> Result<Self, Refusal> {
        let live = self.text();
        if live.len() + text.len() > DECK_BYTES {
            return Err(TOO_LONG);
        }
        let line = self.lines() + 1;
        let refused = |number| Refusal { number, line };
        let first = text.split_inclusive(|&byte| byte == b'\n').next();
        let first = first.ok_or(refused(3))?;
        let row = numbers(first).ok_or(refused(2))?;
        if first.len() < text.len() || !AXIOM_KINDS.contains(&row[0]) {
            return Err(refused(3));
        }
        deck::read(&[&live, text].concat())?;
        let mut more = self.clone();
        more.lines.push(text.to_vec());
        Ok(more)
    }

    /// The axiom of a line less.
    ///
    /// # Errors
    /// 15 where it is no axiom's line.
    pub fn strike(&self, line: u32) -> Result<Self, Refusal> {
        let is_struck = |&(place, kind): &(u32, u32)| place == line && AXIOM_KINDS.contains(&kind);
        let (struck, _) = self.kinds().find(is_struck).ok_or(NOT_LIVE)?;
        let mut less = self.clone();
        less.lines.remove(struck as usize - 1);
        Ok(less)
    }

    /// The same with other options.
    ///
    /// # Errors
    /// 4 where the header may not have them.
    ///
    /// # Panics
    /// Never: the header is read.
    pub fn options(&self, options: u32) -> Result<Self, Refusal> {
        let mut header = numbers(&self.lines[0]).expect("a header");
        *header.last_mut().expect("five numbers") = options;
        let mut line = Vec::new();
        row(&mut line, &header);
        let mut other = self.clone();
        other.lines[0] = line;
        deck::read(&other.text())?;
        Ok(other)
    }
}

/// The table of a text: its length, itself, zeros. Too long a text is cut off.
#[must_use]
pub fn stored(text: &[u8]) -> Vec<u8> {
    let length = u32::try_from(text.len()).unwrap_or(u32::MAX);
    let mut table = [&length.to_le_bytes(), text].concat();
    table.resize(SESSION, 0);
    table
}

/// A good line's kind.
fn kind(line: &[u8]) -> u32 {
    numbers(line).expect("a line of a live deck")[0]
}
