//! The call: dirty tables of any size, anywhere, and what must stand there afterwards.

use deck::random::Random;
use lent::{ATOM, CLAUSE, Clausify, DEFERRAL, Lent, SCRATCH, Tables};

use crate::outcome::Outcome;

/// Bytes of the five tables: clauses, atoms, deferrals, numbers, scratch.
#[derive(Clone, Copy, Debug, PartialEq, Eq)]
pub struct Sizes(pub [usize; 5]);

/// Bytes of the table of numbers.
pub const NUMBERS: usize = 40;

impl Sizes {
    /// Good sizes, with so many records of clauses, atoms and deferrals.
    #[must_use]
    pub fn of_rooms([clauses, atoms, deferrals]: [usize; 3]) -> Self {
        Self([
            clauses * CLAUSE,
            atoms * ATOM,
            deferrals * DEFERRAL,
            NUMBERS,
            SCRATCH,
        ])
    }
}

/// What is lent, call after call.
pub struct Call {
    deck: Lent,
    tables: Tables,
}

impl Default for Call {
    fn default() -> Self {
        Self {
            deck: Lent::default(),
            tables: Tables::new("the table of numbers"),
        }
    }
}

impl Call {
    /// The library's reply.
    pub fn make(&mut self, rng: &mut Random, library: Clausify, deck: &[u8], sizes: &Sizes) -> u64 {
        self.deck.lend_filled(rng, deck);
        self.tables.lend(rng, &sizes.0);
        let [clauses, atoms, deferrals, numbers, scratch] = self.tables.places();
        // SAFETY: each place has its bytes, and nothing else is asked for.
        unsafe {
            library(
                self.deck.pointer(),
                self.deck.len(),
                clauses.0,
                clauses.1,
                atoms.0,
                atoms.1,
                deferrals.0,
                deferrals.1,
                numbers.0,
                numbers.1,
                scratch.0,
                scratch.1,
            )
        }
    }

    /// How the reply, or what the call left, is not as expected.
    #[must_use]
    pub fn difference(&self, reply: u64, deck: &[u8], expected: &Outcome) -> Option<String> {
        if reply != expected.reply {
            let told = [reply, expected.reply].map(|reply| (reply >> 32, reply & 0xffff_ffff));
            return Some(format!("the reply is {:?}, not {:?}", told[0], told[1]));
        }
        let of_tables = self.tables.difference(&expected.words);
        of_tables.or_else(|| self.deck.changed("the deck", deck))
    }

    /// What the call left in tables of good sizes.
    ///
    /// # Errors
    /// If something stands where it may not.
    pub fn left(&self, reply: u64, deck: &[u8]) -> Result<Outcome, String> {
        let mut left = Outcome {
            reply,
            ..Outcome::default()
        };
        if reply == 0 {
            let numbers = self.tables.own();
            let [clauses, deferrals] = [0, 5].map(|place| numbers[place] as usize);
            left.words = self.tables.records(clauses, deferrals, numbers.len())?;
        }
        match self.difference(reply, deck, &left) {
            Some(difference) => Err(difference),
            None => Ok(left),
        }
    }
}
