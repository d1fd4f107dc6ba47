//! Roles and atoms.

use std::fmt;
use std::iter;

use crate::notation::{self, Naming};

/// A class id: a declared class, an individual's class or a fresh one; [`Clauses::class_name`](crate::Clauses::class_name)
/// tells which.
pub type ClassId = u32;
/// A role id.
pub type RoleId = u32;
/// A clause's variable; [`X`] is the one that clauses are about.
pub type Var = u32;

/// The central variable.
pub const X: Var = 0;

/// A role, as named or turned.
#[derive(Clone, Copy, Debug, PartialEq, Eq, Hash)]
pub enum Role {
    /// The role as declared.
    Named(RoleId),
    /// Its inverse.
    Inverse(RoleId),
}

impl Role {
    /// The role of a code: 2 × id, plus 1 for the inverse.
    #[must_use]
    pub fn of_code(code: u32) -> Self {
        if code % 2 == 0 {
            Self::Named(code / 2)
        } else {
            Self::Inverse(code / 2)
        }
    }

    /// The role's code.
    ///
    /// # Panics
    /// With an id of 2^31 or more, which no code has.
    #[must_use]
    pub fn code(self) -> u32 {
        let twice = self.role_id().checked_mul(2).expect("an id below 2^31");
        twice + u32::from(self.is_inverse())
    }

    /// The declared role.
    #[must_use]
    pub fn role_id(self) -> RoleId {
        match self {
            Self::Named(id) | Self::Inverse(id) => id,
        }
    }

    /// Whether the pairs are turned.
    #[must_use]
    pub fn is_inverse(self) -> bool {
        matches!(self, Self::Inverse(_))
    }
}

/// `r3`, or `r3⁻` for the inverse.
impl fmt::Display for Role {
    fn fmt(&self, f: &mut fmt::Formatter<'_>) -> fmt::Result {
        notation::role(f, *self, Naming::IDS)
    }
}

/// An atom of a clause's body or head.
#[derive(Clone, Copy, Debug, PartialEq, Eq, Hash)]
pub enum Atom {
    /// The variable is in the class.
    Class(ClassId, Var),
    /// The first variable is related to the second.
    Role(Role, Var, Var),
    /// The variable is related to some element of the class.
    Exists(Role, ClassId, Var),
    /// The variable is related to at most so many elements, of the class if there is one.
    AtMost(Role, Option<ClassId>, u32, Var),
    /// The variable is related to at least so many elements, of the class if there is one.
    AtLeast(Role, Option<ClassId>, u32, Var),
    /// The two variables are the same element.
    Equal(Var, Var),
}

impl Atom {
    /// The atom with these six words: kind, role code, class id + 1, number, two variables. `None` if no atom has them;
    /// an unused word is 0.
    #[must_use]
    pub fn of_words(words: [u32; 6]) -> Option<Self> {
        let role = Role::of_code;
        Some(match words {
            [1, 0, class, 0, v, 0] => Self::Class(class.checked_sub(1)?, v),
            [2, code, 0, 0, u, v] => Self::Role(role(code), u, v),
            [3, code, class, 0, v, 0] => Self::Exists(role(code), class.checked_sub(1)?, v),
            [4, code, class, n, v, 0] => Self::AtMost(role(code), class.checked_sub(1), n, v),
            [5, code, class, n, v, 0] => Self::AtLeast(role(code), class.checked_sub(1), n, v),
            [6, 0, 0, 0, u, v] => Self::Equal(u, v),
            _ => return None,
        })
    }

    /// The atom's six words.
    ///
    /// # Panics
    /// With the class id 2^32 - 1 or a role id of 2^31 or more, which no six words have.
    #[must_use]
    pub fn words(self) -> [u32; 6] {
        let class = |id: ClassId| id.checked_add(1).expect("a class id that words have");
        let filler = |id: Option<ClassId>| id.map_or(0, class);
        match self {
            Self::Class(id, v) => [1, 0, class(id), 0, v, 0],
            Self::Role(role, u, v) => [2, role.code(), 0, 0, u, v],
            Self::Exists(role, id, v) => [3, role.code(), class(id), 0, v, 0],
            Self::AtMost(role, id, n, v) => [4, role.code(), filler(id), n, v, 0],
            Self::AtLeast(role, id, n, v) => [5, role.code(), filler(id), n, v, 0],
            Self::Equal(u, v) => [6, 0, 0, 0, u, v],
        }
    }

    /// The class that the atom names, if it names one.
    #[must_use]
    pub fn class(self) -> Option<ClassId> {
        match self {
            Self::Class(class, _) | Self::Exists(_, class, _) => Some(class),
            Self::AtMost(_, class, _, _) | Self::AtLeast(_, class, _, _) => class,
            Self::Role(..) | Self::Equal(..) => None,
        }
    }

    /// The variables that the atom names, one or two.
    pub fn variables(self) -> impl Iterator<Item = Var> {
        let (first, second) = match self {
            Self::Role(_, u, v) | Self::Equal(u, v) => (u, Some(v)),
            Self::Class(_, v)
            | Self::Exists(_, _, v)
            | Self::AtMost(_, _, _, v)
            | Self::AtLeast(_, _, _, v) => (v, None),
        };
        iter::once(first).chain(second)
    }
}

/// In logical notation, as `∃r0⁻.C4(x)`. An atom does not know its deck's counts, so a class is `C` and its id, whatever it
/// stands for; a [`Clause`](crate::Clause) tells classes, individuals' classes and fresh ones apart.
impl fmt::Display for Atom {
    fn fmt(&self, f: &mut fmt::Formatter<'_>) -> fmt::Result {
        notation::atom(f, *self, Naming::IDS)
    }
}

#[cfg(test)]
mod tests {
    use super::{Atom, Role};

    #[test]
    fn every_kind_is_read() {
        let r = Role::Named(3);
        let turned = Role::Inverse(3);
        for (words, atom) in [
            ([1, 0, 5, 0, 2, 0], Atom::Class(4, 2)),
            ([2, 6, 0, 0, 0, 1], Atom::Role(r, 0, 1)),
            ([2, 7, 0, 0, 1, 1], Atom::Role(turned, 1, 1)),
            ([3, 7, 1, 0, 9, 0], Atom::Exists(turned, 0, 9)),
            ([4, 6, 0, 2, 0, 0], Atom::AtMost(r, None, 2, 0)),
            ([4, 6, 1, 0, 3, 0], Atom::AtMost(r, Some(0), 0, 3)),
            (
                [5, 7, u32::MAX, u32::MAX, 1, 0],
                Atom::AtLeast(turned, Some(u32::MAX - 1), u32::MAX, 1),
            ),
            (
                [5, 0, 0, 1, 0, 0],
                Atom::AtLeast(Role::Named(0), None, 1, 0),
            ),
            ([6, 0, 0, 0, 1, 2], Atom::Equal(1, 2)),
        ] {
            assert_eq!(Atom::of_words(words), Some(atom));
            assert_eq!(atom.words(), words);
        }
    }

    #[test]
    fn other_words_are_no_atom() {
        for words in [
            [0, 0, 0, 0, 0, 0],
            [7, 0, 0, 0, 0, 0],
            [1, 0, 0, 0, 0, 0],
            [1, 2, 1, 0, 0, 0],
            [1, 0, 1, 0, 0, 1],
            [2, 0, 1, 0, 0, 0],
            [3, 0, 0, 0, 0, 0],
            [3, 0, 1, 1, 0, 0],
            [4, 0, 1, 1, 0, 1],
            [5, 0, 1, 1, 0, 1],
            [6, 0, 0, 1, 0, 0],
        ] {
            assert_eq!(Atom::of_words(words), None, "{words:?}");
        }
    }

    #[test]
    fn a_role_and_its_code() {
        assert_eq!(Role::of_code(8), Role::Named(4));
        assert_eq!(Role::of_code(9), Role::Inverse(4));
        assert_eq!(Role::of_code(9).role_id(), 4);
        assert!(Role::of_code(9).is_inverse() && !Role::of_code(8).is_inverse());
        assert_eq!(
            [0, 1, 8, 9, u32::MAX].map(|code| Role::of_code(code).code()),
            [0, 1, 8, 9, u32::MAX]
        );
    }

    #[test]
    fn in_notation() {
        let (r, turned) = (Role::Named(3), Role::Inverse(3));
        assert_eq!(
            (r.to_string(), turned.to_string()),
            ("r3".to_owned(), "r3⁻".to_owned())
        );
        for (atom, text, class, variables) in [
            (Atom::Class(4, 2), "C4(y2)", Some(4), &[2][..]),
            (Atom::Role(turned, 0, 1), "r3⁻(x,y1)", None, &[0, 1]),
            (Atom::Exists(r, 0, 0), "∃r3.C0(x)", Some(0), &[0]),
            (Atom::AtMost(r, None, 2, 0), "≤2 r3.⊤(x)", None, &[0]),
            (
                Atom::AtLeast(turned, Some(7), 1, 1),
                "≥1 r3⁻.C7(y1)",
                Some(7),
                &[1],
            ),
            (Atom::Equal(0, 2), "x ≈ y2", None, &[0, 2]),
        ] {
            assert_eq!(atom.to_string(), text);
            assert_eq!(atom.class(), class);
            assert!(atom.variables().eq(variables.iter().copied()));
        }
    }
}
