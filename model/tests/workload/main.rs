//! 02, A5: the workload of a seed, compared with numbers worked out apart from
//! the model, and what it does not reach.

#[path = "../common/mod.rs"]
mod common;
#[path = "../common/mistakes.rs"]
#[macro_use]
mod rule;

mod mistaken;
mod mistakes;
mod reached;
mod refused;
mod ties;
mod total;
mod vectors;
