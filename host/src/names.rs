//! Names for the numbers of a deck.

use std::collections::BTreeMap;
use std::error::Error;
use std::fmt;
use std::str::FromStr;

use crate::header::Header;

/// The most elements of a state.
const ELEMENTS: u32 = 64;

/// What is named.
#[derive(Clone, Copy, Debug, PartialEq, Eq, PartialOrd, Ord)]
enum Sort {
    Class,
    Individual,
    Role,
    Element,
}

impl Sort {
    const ALL: [Self; 4] = [Self::Class, Self::Individual, Self::Role, Self::Element];

    fn word(self) -> &'static str {
        match self {
            Self::Class => "class",
            Self::Individual => "individual",
            Self::Role => "role",
            Self::Element => "element",
        }
    }

    fn plural(self) -> &'static str {
        match self {
            Self::Class => "classes",
            Self::Individual => "individuals",
            Self::Role => "roles",
            Self::Element => "elements",
        }
    }

    /// The letters that stand before a number where there is no name. An element is written as two words there.
    fn letters(self) -> &'static [char] {
        match self {
            Self::Class => &['A', 'Q'],
            Self::Individual => &['i'],
            Self::Role => &['r'],
            Self::Element => &[],
        }
    }

    fn count(self, header: Header) -> u32 {
        match self {
            Self::Class => header.classes,
            Self::Individual => header.individuals,
            Self::Role => header.roles,
            Self::Element => ELEMENTS,
        }
    }

    /// Where one is named that is not there.
    fn beyond(self, id: u32, header: Header) -> String {
        let (word, count, plural) = (self.word(), self.count(header), self.plural());
        match self {
            Self::Element => {
                format!("no state has an {word} {id}: it has at most {count} {plural}, from 0 on")
            }
            _ => format!(
                "the deck has no {word} {id}: its header counts {count} {plural}, from 0 on"
            ),
        }
    }
}

/// A name and the line that gives it.
#[derive(Clone, Debug, PartialEq, Eq)]
struct Name {
    line: u32,
    name: String,
}

/// Names for classes, individuals and roles, and for a state's elements, from a text with a line for each: `class 11 Locked`,
/// `individual 0 S1`, `role 2 calls-normal`, `element 4 P1`. Ids count from 0; a role's is its id and not its code. Empty lines
/// and lines that begin with `#` say nothing. A name has no space and none of the signs that clauses are written with; within
/// its sort it is given once, and it is not of the form that numbers without a name are written in (`A7`, `Q7`, `i7`, `r7`), so
/// that it can mean one thing alone.
///
/// ```
/// let names: gorvask::Names = "class 0 Signal\nrole 1 leads\n".parse()?;
/// assert_eq!(names.class(0), Some("Signal"));
/// # Ok::<(), gorvask::NamesError>(())
/// ```
#[derive(Clone, Debug, Default, PartialEq, Eq)]
pub struct Names(BTreeMap<(Sort, u32), Name>);

impl Names {
    /// The name of a class.
    #[must_use]
    pub fn class(&self, id: u32) -> Option<&str> {
        self.get(Sort::Class, id)
    }

    /// The name of an individual.
    #[must_use]
    pub fn individual(&self, id: u32) -> Option<&str> {
        self.get(Sort::Individual, id)
    }

    /// The name of a role.
    #[must_use]
    pub fn role(&self, id: u32) -> Option<&str> {
        self.get(Sort::Role, id)
    }

    /// The name of a state's element.
    #[must_use]
    pub fn element(&self, id: u32) -> Option<&str> {
        self.get(Sort::Element, id)
    }

    fn get(&self, sort: Sort, id: u32) -> Option<&str> {
        self.0.get(&(sort, id)).map(|name| name.name.as_str())
    }

    /// Whether the deck has all that is named. Elements are the states', which need not have all of them.
    ///
    /// # Errors
    /// The first line that names something beyond the deck's counts, or an element beyond what any state has.
    pub fn fit(&self, header: Header) -> Result<(), NamesError> {
        let is_beyond = |&(&(sort, id), _): &(&(Sort, u32), &Name)| id >= sort.count(header);
        let beyond = self.0.iter().filter(is_beyond);
        match beyond.min_by_key(|(_, name)| name.line) {
            None => Ok(()),
            Some((&(sort, id), name)) => Err(NamesError {
                line: name.line,
                words: sort.beyond(id, header),
            }),
        }
    }
}

impl FromStr for Names {
    type Err = NamesError;

    fn from_str(text: &str) -> Result<Self, NamesError> {
        let mut reader = Reader::default();
        for (line, text) in (1..).zip(text.lines()) {
            let taken = reader.take(line, text);
            taken.map_err(|words| NamesError { line, words })?;
        }
        Ok(reader.names)
    }
}

/// The names of the lines so far.
#[derive(Default)]
struct Reader<'t> {
    names: Names,
    /// The id that a name of a sort stands for.
    ids: BTreeMap<(Sort, &'t str), u32>,
}

impl<'t> Reader<'t> {
    /// Takes a line.
    fn take(&mut self, line: u32, text: &'t str) -> Result<(), String> {
        if text.trim_start().is_empty() || text.trim_start().starts_with('#') {
            return Ok(());
        }
        let (sort, id, name) = read(text)?;
        let word = sort.word();
        if let Some(before) = self.names.0.get(&(sort, id)) {
            let before = before.line;
            return Err(format!("{word} {id} has a name already, by line {before}"));
        }
        if let Some(&other) = self.ids.get(&(sort, name)) {
            let before = self.names.0[&(sort, other)].line;
            return Err(format!(
                "{name} is the name of {word} {other} already, by line {before}"
            ));
        }
        self.ids.insert((sort, name), id);
        let name = name.to_owned();
        self.names.0.insert((sort, id), Name { line, name });
        Ok(())
    }
}

/// The three words of a line.
fn read(text: &str) -> Result<(Sort, u32, &str), String> {
    let words: Vec<&str> = text.split_whitespace().collect();
    let [sort, id, name] = words[..] else {
        return Err(format!(
            "a line has three words, as in 'class 11 Locked'; this one has {}",
            words.len()
        ));
    };
    let is_sort = |known: &Sort| known.word() == sort;
    let Some(sort) = Sort::ALL.into_iter().find(is_sort) else {
        return Err(format!(
            "a line begins with class, individual, role or element, and not with {sort:?}"
        ));
    };
    let Some(id) = number(id) else {
        return Err(format!("the second word is a number, and {id:?} is none"));
    };
    is_clear(sort, name)?;
    Ok((sort, id, name))
}

/// The number of a word that has digits alone.
fn number(word: &str) -> Option<u32> {
    let is_digits = word.bytes().all(|byte| byte.is_ascii_digit());
    word.parse().ok().filter(|_| is_digits)
}

/// Whether the name can be told from all else in a clause.
fn is_clear(sort: Sort, name: &str) -> Result<(), String> {
    const SIGNS: &str = "(){},.∃≤≥≈→∨⊤⊥⁻";
    let is_sign = |c: char| SIGNS.contains(c) || c.is_control();
    if let Some(sign) = name.chars().find(|&c| is_sign(c)) {
        return Err(format!(
            "the name {name:?} has {sign:?}, a sign that clauses are written with"
        ));
    }
    let number = name.strip_prefix(sort.letters()).unwrap_or_default();
    if !number.is_empty() && number.bytes().all(|byte| byte.is_ascii_digit()) {
        return Err(format!(
            "{name} is kept for {} without a name",
            sort.plural()
        ));
    }
    Ok(())
}

/// A line that gives no name, and why.
#[derive(Clone, Debug, PartialEq, Eq)]
pub struct NamesError {
    line: u32,
    words: String,
}

impl NamesError {
    /// The line, from 1.
    #[must_use]
    pub fn line(&self) -> u32 {
        self.line
    }
}

/// The line, and what is wrong with it.
impl fmt::Display for NamesError {
    fn fmt(&self, f: &mut fmt::Formatter<'_>) -> fmt::Result {
        write!(f, "line {}: {}", self.line, self.words)
    }
}

impl Error for NamesError {}

#[cfg(test)]
mod tests;
