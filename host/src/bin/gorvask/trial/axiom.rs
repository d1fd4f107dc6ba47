//! An axiom of an accepted deck, in OWL's functional syntax.

use gorvask::{Names, Role};

use super::kinds::{self, CHAIN, Kind, Sort};
use crate::input::Input;

/// The most bytes of an axiom that are shown; parts that stand in many places could make it longer than any page.
const SHOWN: usize = 1_000;

/// The kind of a deck's line, if it is one of axioms or concepts.
pub fn kind(deck: &Input, line: u32) -> Option<&'static Kind> {
    kinds::of(*numbers(deck, line).first()?)
}

/// Whether a line of this kind stands behind a line.
pub fn stands_behind(deck: &Input, line: u32, kind: u32) -> bool {
    let lines = deck.bytes.split(|&byte| byte == b'\n');
    let behind = lines.skip(usize::try_from(line).unwrap_or(usize::MAX));
    behind
        .map(numbers_of)
        .any(|numbers| numbers.first() == Some(&kind))
}

/// The axiom on a line, with names, as far as there are any.
pub fn text(deck: &Input, line: u32, names: &Names) -> String {
    let is_mark = |line: &&[u8]| numbers_of(line).first() == Some(&14);
    let lines = deck.bytes.split(|&byte| byte == b'\n');
    let marks = lines.skip(1).take_while(is_mark).count();
    let mut writer = Writer {
        deck,
        names,
        concepts: u32::try_from(marks).unwrap_or(0) + 2,
        out: String::new(),
        is_cut: false,
    };
    writer.line(line);
    if writer.is_cut {
        writer.out.push_str(" ..");
    }
    writer.out
}

fn numbers(deck: &Input, line: u32) -> Vec<u32> {
    deck.line(line).map(numbers_of).unwrap_or_default()
}

/// The numbers of an accepted deck's line.
fn numbers_of(line: &[u8]) -> Vec<u32> {
    let text = String::from_utf8_lossy(line);
    text.split_ascii_whitespace()
        .map_while(|word| word.parse().ok())
        .collect()
}

struct Writer<'a> {
    deck: &'a Input,
    names: &'a Names,
    /// The line of concept 0.
    concepts: u32,
    out: String,
    /// Whether something was left out.
    is_cut: bool,
}

impl Writer<'_> {
    /// Whether there is no room for more, which is then left out.
    fn is_full(&mut self) -> bool {
        self.is_cut |= self.out.len() > SHOWN;
        self.is_cut
    }

    fn line(&mut self, line: u32) {
        let numbers = numbers(self.deck, line);
        let Some((&number, rest)) = numbers.split_first() else {
            return;
        };
        let Some(kind) = kinds::of(number) else {
            return;
        };
        self.out.push_str(kind.name);
        match (kind.sorts, rest) {
            ([], _) => {}
            ([sort], &[value]) if kind.name.is_empty() => self.named(*sort, value),
            (_, [sup, chain @ ..]) if number == CHAIN => {
                self.out.push_str("(ObjectPropertyChain");
                self.list(kind.sorts, chain);
                if !self.is_full() {
                    self.out.push(' ');
                    self.named(Sort::Role, *sup);
                    self.out.push(')');
                }
            }
            (sorts, rest) => self.list(sorts, rest),
        }
    }

    /// In brackets, the last sort being that of all behind it.
    fn list(&mut self, sorts: &[Sort], values: &[u32]) {
        let sorts = sorts.iter().chain(sorts.last().into_iter().cycle());
        let mut before = "(";
        for (&value, &sort) in values.iter().zip(sorts) {
            if self.is_full() {
                return;
            }
            self.out.push_str(before);
            self.named(sort, value);
            before = " ";
        }
        if !self.is_cut {
            let end = if values.is_empty() { "()" } else { ")" };
            self.out.push_str(end);
        }
    }

    fn named(&mut self, sort: Sort, value: u32) {
        let names = self.names;
        let or_id = |name: Option<&str>, letter: &str| {
            name.map_or_else(|| format!("{letter}{value}"), str::to_owned)
        };
        let text = match sort {
            Sort::Number => value.to_string(),
            Sort::Class => or_id(names.class(value), "A"),
            Sort::Individual => or_id(names.individual(value), "i"),
            Sort::Role => role(Role::of_code(value), names),
            Sort::Concept => return self.line(self.concepts.saturating_add(value)),
        };
        self.out.push_str(&text);
    }
}

fn role(role: Role, names: &Names) -> String {
    let id = role.role_id();
    let name = names
        .role(id)
        .map_or_else(|| format!("r{id}"), str::to_owned);
    if role.is_inverse() {
        format!("ObjectInverseOf({name})")
    } else {
        name
    }
}

#[cfg(test)]
mod tests;
