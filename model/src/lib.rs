//! A plain Rust model of the lease protocol, written from documents 01 and 02
//! alone.
//!
//! It shares no code with the product. The product's `roadrun` is compared with
//! its listings, byte for byte.

pub mod answer;
pub mod bits;
pub mod checked_writer;
pub mod copies;
pub mod events;
pub mod frame;
pub mod limits;
pub mod listing;
pub mod message;
pub mod queue;
pub mod requests;
pub mod rules;
pub mod run_steps;
pub mod runfile;
pub mod setup;
pub mod sound;
pub mod state;
pub mod step_call;
pub mod step_record;
pub mod tables;
pub mod unchecked_writer;
pub mod why;
pub mod workload;
pub mod world;

mod checks;

pub use checks::{cases, examples, gen, mistakes, shrink, until_shown};
