//! A safe wrapper of Gorvask, the proved clausifier: from a deck of axioms to DL-clauses.
//!
//! ```
//! use gorvask::{Atom, Clausifier, OwnedClause, Role};
//!
//! // A0 below Some r0 A1
//! let deck = concat!(
//!     "          0          3          0          1          3\n",
//!     "          3          0\n",
//!     "          3          1\n",
//!     "          9          0          1\n",
//!     "         21          0          2\n",
//! );
//! let mut clausifier = Clausifier::new();
//! let clauses = clausifier.clausify(deck.as_bytes())?;
//! for clause in clauses {
//!     assert_eq!(clause.body().collect::<Vec<_>>(), [Atom::Class(0, 0)]);
//!     assert_eq!(clause.head().collect::<Vec<_>>(), [Atom::Exists(Role::Named(0), 1, 0)]);
//!     assert_eq!(clause.to_string(), "A0(x) → ∃r0.A1(x)");
//! }
//! assert!(clauses.provisos().are_met());
//! let kept: Vec<OwnedClause> = clauses.into_iter().map(OwnedClause::from).collect();
//! # assert_eq!(kept.len(), 1);
//! # Ok::<(), gorvask::Refusal>(())
//! ```
//!
//! Checking and documenting this package needs no static library, and neither do the tests of this library target
//! (`cargo test --lib`). What is linked needs it: `host/library` in the repository writes it.

mod atom;
mod clause;
mod clauses;
mod clausifier;
mod deferral;
pub mod diagnosis;
mod fields;
mod header;
mod keys;
mod names;
mod notation;
mod owned;
mod provisos;
mod refusal;
mod session;
mod sizes;
mod statistics;
pub mod sys;
mod tables;
mod tester;
mod tried;
mod words;

pub use atom::{Atom, ClassId, Role, RoleId, Var, X};
pub use clause::{Atoms, Clause};
pub use clauses::{Clauses, Iter};
pub use clausifier::Clausifier;
pub use deferral::{Deferral, DeferralKind};
pub use header::{ClassName, Header};
pub use names::{Names, NamesError};
pub use notation::var_name;
pub use owned::OwnedClause;
pub use provisos::Provisos;
pub use refusal::{Refusal, RefusalKind};
pub use session::Session;
pub use sizes::Sizes;
pub use statistics::Statistics;
pub use tester::{Tester, Trial};
pub use tried::{Test, Tried};
