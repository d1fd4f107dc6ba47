//! The entries of a session through the C interface, beside a second reading that shares nothing with the proved one.

mod call;
#[cfg(feature = "live")]
mod case;
#[cfg(feature = "live")]
mod compare;
mod diagnosed;
#[cfg(feature = "live")]
mod draw;
#[cfg(feature = "live")]
mod expected;
#[cfg(feature = "live")]
pub mod mock;
#[cfg(feature = "live")]
pub mod sampled;
pub mod second;
pub mod steps;
pub mod stored;
#[cfg(feature = "live")]
pub mod written;

pub use call::{Caller, Library, code, tell};
#[cfg(feature = "live")]
pub use case::{Case, case};
#[cfg(feature = "live")]
pub use compare::{Difference, Until, compare, compare_written, must, play};
#[cfg(feature = "live")]
pub use expected::{Expected, Reply};
