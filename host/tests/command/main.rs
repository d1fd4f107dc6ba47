//! The command as a process: arguments, statuses, standard output and error.

#[path = "../common/mod.rs"]
mod common;

mod answers;
mod input;
mod names;
mod process;
mod promise;
mod refusals;
mod session_ends;
mod sessions;
mod states;
mod tries;
mod usage;
mod writes;
