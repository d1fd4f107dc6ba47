//! Clauses in logical notation: `A3(x), r1(x,y1) → A2(y1) ∨ ∃r0.A5(x)`.

use std::fmt;

use crate::atom::{Atom, ClassId, Role, Var, X};
use crate::header::{ClassName, Header};
use crate::names::Names;

/// What classes and roles are called.
#[derive(Clone, Copy)]
pub(crate) struct Naming<'a> {
    /// The deck's counts, which tell classes, individuals' classes and fresh ones apart.
    pub header: Option<Header>,
    /// Names in place of numbers.
    pub names: Option<&'a Names>,
}

impl Naming<'_> {
    /// Ids alone.
    pub const IDS: Self = Self {
        header: None,
        names: None,
    };
}

/// Something that a function writes.
pub(crate) struct Written<F>(pub F);

impl<F: Fn(&mut fmt::Formatter<'_>) -> fmt::Result> fmt::Display for Written<F> {
    fn fmt(&self, f: &mut fmt::Formatter<'_>) -> fmt::Result {
        (self.0)(f)
    }
}

/// `body → head`; an empty body is `⊤`, an empty head `⊥`.
pub(crate) fn clause(
    f: &mut fmt::Formatter<'_>,
    body: impl Iterator<Item = Atom>,
    head: impl Iterator<Item = Atom>,
    naming: Naming<'_>,
) -> fmt::Result {
    list(f, body, [", ", "⊤"], naming)?;
    f.write_str(" → ")?;
    list(f, head, [" ∨ ", "⊥"], naming)
}

fn list(
    f: &mut fmt::Formatter<'_>,
    atoms: impl Iterator<Item = Atom>,
    [between, none]: [&str; 2],
    naming: Naming<'_>,
) -> fmt::Result {
    let mut is_empty = true;
    for each in atoms {
        if !is_empty {
            f.write_str(between)?;
        }
        is_empty = false;
        atom(f, each, naming)?;
    }
    f.write_str(if is_empty { none } else { "" })
}

pub(crate) fn atom(f: &mut fmt::Formatter<'_>, atom: Atom, naming: Naming<'_>) -> fmt::Result {
    match atom {
        Atom::Class(id, v) => {
            class(f, id, naming)?;
            write!(f, "({})", var_name(v))
        }
        Atom::Role(r, u, v) => {
            role(f, r, naming)?;
            write!(f, "({},{})", var_name(u), var_name(v))
        }
        Atom::Exists(r, id, v) => filled(f, "∃", (r, Some(id), v), naming),
        Atom::AtMost(r, id, n, v) => filled(f, &format!("≤{n} "), (r, id, v), naming),
        Atom::AtLeast(r, id, n, v) => filled(f, &format!("≥{n} "), (r, id, v), naming),
        Atom::Equal(u, v) => write!(f, "{} ≈ {}", var_name(u), var_name(v)),
    }
}

/// A quantifier or count over a role and a class, of a variable.
fn filled(
    f: &mut fmt::Formatter<'_>,
    sign: &str,
    (r, filler, v): (Role, Option<ClassId>, Var),
    naming: Naming<'_>,
) -> fmt::Result {
    f.write_str(sign)?;
    role(f, r, naming)?;
    f.write_str(".")?;
    match filler {
        Some(id) => class(f, id, naming)?,
        None => f.write_str("⊤")?,
    }
    write!(f, "({})", var_name(v))
}

fn class(f: &mut fmt::Formatter<'_>, id: ClassId, naming: Naming<'_>) -> fmt::Result {
    let Some(header) = naming.header else {
        return write!(f, "C{id}");
    };
    let named =
        |find: fn(&Names, u32) -> Option<&str>, id| naming.names.and_then(|names| find(names, id));
    let of = header.class_name(id);
    match of {
        ClassName::Declared(id) => named(Names::class, id).map(|name| f.write_str(name)),
        ClassName::Individual(id) => {
            named(Names::individual, id).map(|name| write!(f, "{{{name}}}"))
        }
        ClassName::Fresh(_) => None,
    }
    .unwrap_or_else(|| write!(f, "{of}"))
}

pub(crate) fn role(f: &mut fmt::Formatter<'_>, role: Role, naming: Naming<'_>) -> fmt::Result {
    let id = role.role_id();
    match naming.names.and_then(|names| names.role(id)) {
        Some(name) => f.write_str(name)?,
        None => write!(f, "r{id}")?,
    }
    f.write_str(if role.is_inverse() { "⁻" } else { "" })
}

/// What a clause's variable is called: `x`, `y1`, `y2`, ...
#[must_use]
pub fn var_name(var: Var) -> impl fmt::Display {
    Written(move |f: &mut fmt::Formatter<'_>| {
        if var == X {
            f.write_str("x")
        } else {
            write!(f, "y{var}")
        }
    })
}
