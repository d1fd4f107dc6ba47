//! The call: dirty tables of any size, anywhere, and what must stand there afterwards.

use deck::Refusal;
use deck::random::Random;
use lent::{ATOM, CLAUSE, DEFERRAL, Lent, SCRATCH, Tables, Try};

use crate::outcome::Outcome;
use crate::verdict::Test;

/// The two entries.
#[derive(Clone, Copy)]
pub struct Library {
    pub axioms: Try,
    pub clauses: Try,
}

impl Library {
    #[must_use]
    pub fn entry(&self, test: Test) -> Try {
        match test {
            Test::Axioms => self.axioms,
            Test::Clauses => self.clauses,
        }
    }
}

/// Bytes of the five tables: clauses, atoms, deferrals, store, scratch.
#[derive(Clone, Copy, Debug, PartialEq, Eq)]
pub struct Sizes(pub [usize; 5]);

impl Sizes {
    /// Good sizes, with so many records of clauses, atoms and deferrals, and a store of so many bytes.
    #[must_use]
    pub fn of_rooms([clauses, atoms, deferrals]: [usize; 3], store: usize) -> Self {
        Self([
            clauses * CLAUSE,
            atoms * ATOM,
            deferrals * DEFERRAL,
            store,
            SCRATCH,
        ])
    }
}

/// What is lent, call after call.
pub struct Call {
    deck: Lent,
    state: Lent,
    tables: Tables,
}

impl Default for Call {
    fn default() -> Self {
        Self {
            deck: Lent::default(),
            state: Lent::default(),
            tables: Tables::new("the store"),
        }
    }
}

impl Call {
    /// The entry's reply.
    pub fn make(
        &mut self,
        rng: &mut Random,
        entry: Try,
        [deck, state]: [&[u8]; 2],
        sizes: &Sizes,
    ) -> u64 {
        self.deck.lend_filled(rng, deck);
        self.state.lend_filled(rng, state);
        self.tables.lend(rng, &sizes.0);
        let [clauses, atoms, deferrals, store, scratch] = self.tables.places();
        // SAFETY: each place has its bytes, and nothing else is asked for.
        unsafe {
            entry(
                self.deck.pointer(),
                self.deck.len(),
                self.state.pointer(),
                self.state.len(),
                clauses.0,
                clauses.1,
                atoms.0,
                atoms.1,
                deferrals.0,
                deferrals.1,
                store.0,
                store.1,
                scratch.0,
                scratch.1,
            )
        }
    }

    /// How the reply, or what the call left, is not as expected.
    #[must_use]
    pub fn difference(&self, reply: u64, texts: [&[u8]; 2], expected: &Outcome) -> Option<String> {
        if reply != expected.reply {
            let [told, asked] = [reply, expected.reply].map(tell);
            return Some(format!("the reply is {told}, not {asked}"));
        }
        let of_tables = self.tables.difference(&expected.words);
        of_tables.or_else(|| self.text_difference(texts))
    }

    /// What the call left in tables of good sizes.
    ///
    /// # Errors
    /// If something stands where it may not.
    pub fn left(&self, reply: u64, texts: [&[u8]; 2]) -> Result<Outcome, String> {
        let mut left = Outcome {
            reply,
            ..Outcome::default()
        };
        if left.refusal().is_none() {
            left.words = self.records()?;
            let verdict = &left.words[3][10..];
            // Where all holds the store tells of nothing.
            if reply > 1 || reply == 0 && *verdict != [0, 0] {
                let told = tell(reply);
                return Err(format!(
                    "the reply is {told}, and the store has {verdict:?}"
                ));
            }
        }
        match self.difference(reply, texts, &left) {
            Some(difference) => Err(difference),
            None => Ok(left),
        }
    }

    /// The records that the store tells of.
    fn records(&self) -> Result<[Vec<u32>; 5], String> {
        let store = self.tables.own();
        let counted = |place: usize| store.get(place).map_or(0, |&count| count as usize);
        let [clauses, deferrals, shown] = [0, 5, 11].map(counted);
        self.tables.records(clauses, deferrals, 12 + shown)
    }

    fn text_difference(&self, [deck, state]: [&[u8]; 2]) -> Option<String> {
        let of_deck = self.deck.changed("the deck", deck);
        of_deck.or_else(|| self.state.changed("the state", state))
    }
}

/// A reply in words.
fn tell(reply: u64) -> String {
    let outcome = Outcome {
        reply,
        ..Outcome::default()
    };
    match (outcome.refusal(), reply) {
        (Some(Refusal { number, line }), _) => format!("({number}, {line})"),
        (None, 0) => "holds".into(),
        (None, 1) => "broken".into(),
        (None, other) => format!("{other}"),
    }
}
