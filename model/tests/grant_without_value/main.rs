//! 02, A4: a GRANT without a value whose number stands, in the states of the
//! generated runs and on tables that no run reaches.

#[path = "../common/mod.rs"]
mod common;

mod any_tables;
mod in_runs;
mod met;
