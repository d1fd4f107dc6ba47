//! A deck's first line, and what class ids stand for by its counts.

use std::fmt;

use crate::atom::ClassId;
use crate::fields;

/// The counts of a deck's names, and its options.
#[derive(Clone, Copy, Debug, PartialEq, Eq, Hash)]
pub struct Header {
    /// Declared classes.
    pub classes: u32,
    /// Declared individuals.
    pub individuals: u32,
    /// Declared roles.
    pub roles: u32,
    /// 1 splits wide bodies, 2 lets counts stand among alternatives, 4 has a fresh class that an at-most counts stand for just
    /// what it names; summed.
    pub options: u32,
}

impl Header {
    /// The header of a deck that was accepted; of any other bytes, some header or none.
    #[must_use]
    pub fn of(deck: &[u8]) -> Option<Self> {
        let mut numbers = fields::of(deck);
        let mut next = || numbers.next().flatten();
        let is_header = next()? == 0;
        let header = Self {
            classes: next()?,
            individuals: next()?,
            roles: next()?,
            options: next()?,
        };
        is_header.then_some(header)
    }

    /// Whether option 4 is on.
    pub(crate) fn has_equal_names(self) -> bool {
        self.options & 4 != 0
    }

    /// What a class id stands for.
    #[must_use]
    pub fn class_name(self, class: ClassId) -> ClassName {
        let Some(individual) = class.checked_sub(self.classes) else {
            return ClassName::Declared(class);
        };
        match individual.checked_sub(self.individuals) {
            None => ClassName::Individual(individual),
            Some(fresh) => ClassName::Fresh(fresh),
        }
    }
}

/// What a class id stands for.
#[derive(Clone, Copy, Debug, PartialEq, Eq, Hash)]
pub enum ClassName {
    /// The deck's class of this number.
    Declared(u32),
    /// The class that holds the deck's individual of this number alone.
    Individual(u32),
    /// A name that the run gave to a part of an axiom, the first being 0.
    Fresh(u32),
}

/// `A3` for a class of the deck, `{i0}` for an individual's, `Q0` for a fresh one.
impl fmt::Display for ClassName {
    fn fmt(&self, f: &mut fmt::Formatter<'_>) -> fmt::Result {
        match self {
            Self::Declared(id) => write!(f, "A{id}"),
            Self::Individual(id) => write!(f, "{{i{id}}}"),
            Self::Fresh(id) => write!(f, "Q{id}"),
        }
    }
}

#[cfg(test)]
mod tests {
    use super::Header;

    #[test]
    fn class_ids_by_their_range() {
        let deck = format!("{:11}{:11}{:11}{:11}{:11}\n", 0, 3, 2, 1, 3);
        let header = Header::of(deck.as_bytes()).expect("a header");
        assert_eq!((header.roles, header.options), (1, 3));
        let names: Vec<String> = (0..7)
            .map(|class| header.class_name(class).to_string())
            .collect();
        assert_eq!(names, ["A0", "A1", "A2", "{i0}", "{i1}", "Q0", "Q1"]);
    }

    #[test]
    fn other_bytes_have_no_header() {
        let no_header = format!("{:11}{:11}{:11}{:11}{:11}\n", 3, 3, 2, 1, 3);
        for bytes in [
            &b""[..],
            b"          0          1\n",
            &[255; 60],
            &[b' '; 60],
            no_header.as_bytes(),
        ] {
            assert_eq!(Header::of(bytes), None);
        }
    }
}
