//! The tables of a call: lent dirty, of any sizes, anywhere, and what must stand there afterwards.

use deck::random::Random;

use crate::{ATOM, CLAUSE, DEFERRAL, Lent, bytes, first_not_zero, words};

const DEFERRALS: usize = 2;

/// Clauses, atoms, deferrals, a table of the entry's own, and scratch, call after call.
#[derive(Debug)]
pub struct Tables {
    names: [&'static str; 5],
    tables: [Lent; 5],
}

impl Tables {
    /// With this name for the entry's own table.
    #[must_use]
    pub fn new(own: &'static str) -> Self {
        let names = [
            "the clause table",
            "the atom table",
            "the deferral table",
            own,
            "scratch",
        ];
        Self {
            names,
            tables: Default::default(),
        }
    }

    /// Lends dirty tables of so many bytes.
    pub fn lend(&mut self, rng: &mut Random, sizes: &[usize; 5]) {
        for (table, &len) in self.tables.iter_mut().zip(sizes) {
            table.lend(rng, len);
        }
    }

    /// Where each begins, and its bytes.
    pub fn places(&mut self) -> [(*mut u8, usize); 5] {
        self.tables
            .each_mut()
            .map(|table| (table.pointer(), table.len()))
    }

    /// Each table's name and bytes.
    #[must_use]
    pub fn contents(&self) -> [(&'static str, &[u8]); 5] {
        [0, 1, 2, 3, 4].map(|place| (self.names[place], self.tables[place].bytes()))
    }

    /// The words of the entry's own table.
    #[must_use]
    pub fn own(&self) -> Vec<u32> {
        words(self.tables[3].bytes())
    }

    /// The records that so many clauses and deferrals have, and so many words of the entry's own table.
    ///
    /// # Errors
    /// If a table has no room for them.
    pub fn records(
        &self,
        clauses: usize,
        deferrals: usize,
        own: usize,
    ) -> Result<[Vec<u32>; 5], String> {
        let clauses = self.front(0, CLAUSE / 4 * clauses)?;
        let runs = clauses
            .chunks(CLAUSE / 4)
            .map(|clause| [clause[1], clause[2]]);
        let count: usize = runs.flatten().map(|atoms| atoms as usize).sum();
        let atoms = self.front(1, ATOM / 4 * count)?;
        let deferrals = self.front(DEFERRALS, DEFERRAL / 4 * deferrals)?;
        Ok([clauses, atoms, deferrals, self.front(3, own)?, Vec::new()])
    }

    fn front(&self, place: usize, count: usize) -> Result<Vec<u32>, String> {
        let mut words = words(self.tables[place].bytes());
        if words.len() < count {
            return Err(format!("{} has no room for so many", self.names[place]));
        }
        words.truncate(count);
        Ok(words)
    }

    /// How a table has not these words and then zeros, or a byte beside one was written.
    #[must_use]
    pub fn difference(&self, expected: &[Vec<u32>; 5]) -> Option<String> {
        let mut differences = (0..5).filter_map(|place| self.table_difference(place, expected));
        differences.next().or_else(|| self.beside())
    }

    /// Where a byte beside one of the tables was written, if one was.
    #[must_use]
    pub fn beside(&self) -> Option<String> {
        let mut tables = self.names.iter().zip(&self.tables);
        tables.find_map(|(name, table)| table.beside(name))
    }

    fn table_difference(&self, place: usize, expected: &[Vec<u32>; 5]) -> Option<String> {
        let (name, expected) = (self.names[place], &expected[place]);
        let records = bytes(expected);
        let Some((found, rest)) = self.tables[place].bytes().split_at_checked(records.len()) else {
            return Some(format!("{name} has no room for what is expected"));
        };
        if place == DEFERRALS {
            if sorted(found) != sorted(&records) {
                return Some(format!("{name} has other records"));
            }
        } else if found != records {
            return Some(word_difference(name, &words(found), expected));
        }
        let byte = first_not_zero(rest)?;
        let (place, found) = (records.len() + byte, rest[byte]);
        Some(format!("byte {place} of {name} is {found}, not 0"))
    }
}

/// The first word that differs, and what follows it.
fn word_difference(name: &str, found: &[u32], expected: &[u32]) -> String {
    let mut pairs = found.iter().zip(expected);
    let word = pairs
        .position(|(found, expected)| found != expected)
        .expect("words that differ");
    let [found, expected] = [found, expected].map(|words| &words[word..words.len().min(word + 20)]);
    format!(
        "word {word} of {name} is {}, not {}: {found:?}, not {expected:?}",
        found[0], expected[0]
    )
}

/// Deferrals, whose order is free.
fn sorted(bytes: &[u8]) -> Vec<[u8; DEFERRAL]> {
    let (records, _) = bytes.as_chunks();
    let mut records = records.to_vec();
    records.sort_unstable();
    records
}
