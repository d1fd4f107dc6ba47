//! The tests of a state through the C interface, beside a second evaluator that shares nothing with the proved one.

mod call;
#[cfg(feature = "live")]
mod case;
#[cfg(feature = "live")]
mod compare;
#[cfg(feature = "live")]
mod draw;
#[cfg(feature = "live")]
pub mod mock;
mod outcome;
#[cfg(feature = "live")]
mod points;
#[cfg(feature = "live")]
pub mod sampled;
#[cfg(feature = "live")]
pub mod second;
#[cfg(feature = "live")]
mod shrink;
#[cfg(feature = "live")]
mod sizes;
pub mod stored;
mod verdict;
#[cfg(feature = "live")]
pub mod written;

pub use call::{Call, Library, Sizes};
#[cfg(feature = "live")]
pub use case::{Case, case};
#[cfg(feature = "live")]
pub use compare::{Until, compare, compare_written, difference, must};
pub use outcome::Outcome;
#[cfg(feature = "live")]
pub use second::read::Rule;
#[cfg(feature = "live")]
pub use sizes::WRONG;
pub use verdict::{Test, Verdict};
