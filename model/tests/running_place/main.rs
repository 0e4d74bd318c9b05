//! 02, A2: the running place by which the step records of a run file are found,
//! on generated files, on files made by hand, and compared with readers whose
//! place goes wrong.

#[path = "../common/mod.rs"]
mod common;

mod bytes;
mod mistakes;
mod places;
mod reader;
mod refused;
