//! 02, A5: the one writer of run files: what the reader returns, and what is
//! refused.

#[path = "../common/mod.rs"]
mod common;
#[path = "../common/mistakes.rs"]
#[macro_use]
mod rule;

mod mistaken;
mod mistakes;
mod read_back;
mod refused;
