//! A session's calls in plain Rust, from table to table, over the reader of the tests. Each reads the live deck once, and says
//! whether it is done; why not is not told.

use deck::Deck;
use deck::limits::{DECK_BYTES, OPTIONS};
use deck::read::numbers;
use deck::write::row;
use rustdl::clause::{ClauseStats, DlClause, clausify_with_stats};

use crate::ways::load;

/// Bytes of the length.
const WORD: usize = 4;
pub const SESSION_BYTES: usize = WORD + DECK_BYTES;

/// A deck takes the place of what the table held. Where it is refused the table is zeros.
pub fn start(deck: &[u8], table: &mut [u8]) -> bool {
    let is_done = deck::read(deck).is_ok();
    let text = if is_done { deck } else { &[] };
    let (start, rest) = table[WORD..].split_at_mut(text.len());
    start.copy_from_slice(text);
    rest.fill(0);
    set_length(table, text.len());
    is_done
}

/// A line behind the live deck. Where the longer text is read, so is the shorter one, if it ends a line.
pub fn add(line: &[u8], table: &mut [u8]) -> bool {
    let Some(length) = length(table) else {
        return false;
    };
    let longer = length + line.len();
    let ends_line = table[WORD..][..length].ends_with(b"\n");
    if longer > DECK_BYTES || !ends_line || !is_axiom(line) {
        return false;
    }
    table[WORD + length..][..line.len()].copy_from_slice(line);
    let is_done = deck::read(&table[WORD..][..longer]).is_ok();
    if is_done {
        set_length(table, longer);
    } else {
        table[WORD + length..].fill(0);
    }
    is_done
}

/// The axiom of a line less.
pub fn strike(line: u32, table: &mut [u8]) -> bool {
    let Some((deck, length)) = held(table) else {
        return false;
    };
    let lines = deck.axiom_line(0)..deck.axiom_line(deck.axioms.len());
    if !lines.contains(&line) {
        return false;
    }
    let text = &mut table[WORD..][..length];
    let mut lengths = text.split_inclusive(|&byte| byte == b'\n').map(<[u8]>::len);
    let before: usize = lengths.by_ref().take(line as usize - 1).sum();
    let struck = lengths.next().unwrap_or(0);
    text.copy_within(before + struck.., before);
    text[length - struck..].fill(0);
    set_length(table, length - struck);
    true
}

/// Other options in the header.
pub fn options(options: u32, table: &mut [u8]) -> bool {
    let Some((deck, _)) = held(table) else {
        return false;
    };
    if options > OPTIONS {
        return false;
    }
    let mut header = Vec::new();
    let counts = [0, deck.classes, deck.individuals, deck.roles];
    row(&mut header, &[&counts[..], &[options]].concat());
    table[WORD..][..header.len()].copy_from_slice(&header);
    true
}

/// The clauses of the live deck; its options are those of the environment.
pub fn take(table: &[u8]) -> Option<(Vec<DlClause>, ClauseStats)> {
    let (deck, _) = held(table)?;
    Some(clausify_with_stats(&load(&deck)))
}

/// The live deck and its length, where the table holds one.
fn held(table: &[u8]) -> Option<(Deck, usize)> {
    let length = length(table)?;
    let deck = deck::read(&table[WORD..][..length]).ok()?;
    Some((deck, length))
}

/// The length of the text, where zeros stand behind it.
fn length(table: &[u8]) -> Option<usize> {
    let (word, rest) = table.split_first_chunk::<WORD>()?;
    let length = u32::from_le_bytes(*word) as usize;
    let (_, zeros) = rest.split_at_checked(length)?;
    let is_whole = rest.len() == DECK_BYTES && zeros.iter().fold(0, |all, byte| all | byte) == 0;
    is_whole.then_some(length)
}

fn set_length(table: &mut [u8], length: usize) {
    let length = u32::try_from(length).expect("a deck's");
    table[..WORD].copy_from_slice(&length.to_le_bytes());
}

/// Whether this is one line of an axiom's kind.
fn is_axiom(line: &[u8]) -> bool {
    let mut lines = line.split_inclusive(|&byte| byte == b'\n');
    let kind = lines.next().and_then(numbers).map(|numbers| numbers[0]);
    kind.is_some_and(|kind| (21..=36).contains(&kind)) && lines.next().is_none()
}

#[cfg(test)]
mod tests {
    use deck::damage::damage;
    use deck::generate::{Shape, any, axiom_of, generate};
    use deck::random::Random;
    use deck::write::{axiom_row, row};
    use session::second::{Session, stored};

    use super::{SESSION_BYTES, add, options, start, strike};

    /// A call's table and whether it is done are as the second reading has them.
    fn same<R>(table: &[u8], call: impl FnOnce(&mut [u8]) -> bool, second: Result<Session, R>) {
        let mut ours = table.to_vec();
        let is_done = call(&mut ours);
        assert_eq!(is_done, second.is_ok());
        assert!(ours == second.map_or(table.to_vec(), |session| session.table()));
    }

    /// Each call on a table, which holds this session or none.
    fn calls(rng: &mut Random, table: &[u8], held: Option<&Session>, line: &[u8]) {
        let session = || held.ok_or(());
        let second = session().and_then(|held| held.add(line).map_err(drop));
        same(table, |table| add(line, table), second);
        let lines = held.map_or(1, Session::lines);
        for at in [0, 1, lines, lines + 1, rng.below(lines + 1)] {
            let second = session().and_then(|held| held.strike(at).map_err(drop));
            same(table, |table| strike(at, table), second);
        }
        for set in [0, 7, 8] {
            let second = session().and_then(|held| held.options(set).map_err(drop));
            same(table, |table| options(set, table), second);
        }
    }

    #[test]
    fn calls_do_as_the_second_reading() {
        let mut rng = Random::new(1);
        for number in 0..400 {
            let deck = match number % 2 {
                0 => generate(&mut rng, Shape::Small),
                _ => any(&mut rng).1,
            };
            let mut line = Vec::new();
            row(&mut line, &axiom_row(&axiom_of(&mut rng, &deck)));
            let text = deck::write(&deck);
            for text in [damage(&mut rng, &text), text] {
                let second = Session::start(&text);
                let mut table = vec![0xff; SESSION_BYTES];
                assert_eq!(start(&text, &mut table), second.is_ok());
                let expected = second
                    .as_ref()
                    .map_or(vec![0; SESSION_BYTES], Session::table);
                assert!(table == expected);
                let spoilt = damage(&mut rng, &line);
                for line in [&line, &spoilt, &[&line[..], &line].concat(), &Vec::new()] {
                    calls(&mut rng, &table, second.as_ref().ok(), line);
                }
            }
        }
    }

    #[test]
    fn what_is_no_session_is_refused() {
        let text = deck::write(&generate(&mut Random::new(2), Shape::Small));
        let line = b"         28          0\n";
        let mut rng = Random::new(3);
        let good = stored(&text);
        for place in [0, 3, 4, text.len() + 3, text.len() + 4, SESSION_BYTES - 1] {
            let mut table = good.clone();
            table[place] ^= 1;
            let held = Session::held(&table);
            calls(&mut rng, &table, held.as_ref(), line);
        }
        let unended = [&text[..text.len() - 1], b""].concat();
        for table in [stored(&unended), stored(b""), good[1..].to_vec()] {
            calls(&mut rng, &table, None, line);
        }
    }
}
