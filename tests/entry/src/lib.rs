//! The whole port through its C interface beside the original, on generated and on stored decks.

mod call;
#[cfg(feature = "live")]
mod case;
#[cfg(feature = "live")]
mod chosen;
#[cfg(feature = "live")]
mod compare;
#[cfg(feature = "live")]
mod decks;
#[cfg(feature = "live")]
mod diagnosed;
#[cfg(feature = "live")]
mod dwelling;
#[cfg(feature = "live")]
mod following;
#[cfg(feature = "live")]
pub mod mock;
mod outcome;
#[cfg(feature = "live")]
mod settling;
#[cfg(feature = "live")]
mod sizes;
pub mod stored;

pub use call::{Call, Sizes};
#[cfg(feature = "live")]
pub use case::{Case, Decks, OTHER, case, sampled, stored_case};
#[cfg(feature = "live")]
pub use chosen::chosen;
#[cfg(feature = "live")]
pub use compare::{Until, compare, must, must_dwelling, must_following, must_limits};
pub use outcome::Outcome;
#[cfg(feature = "live")]
pub use sizes::WRONG;
