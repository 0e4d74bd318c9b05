//! The lease system of documents 01 and 02 as a library. It lists whole runs,
//! tells why a read was answered "ask first", writes run files from their parts
//! or from a seed, and converts messages to and from frames.
//!
//! The work is done by the proved code in `libgevtsomi.a`. This package only
//! turns slices, messages and a file's parts into its arguments. It decides
//! nothing, allocates nothing and does no input or output, so that firmware can
//! link it.
#![no_std]
#![warn(missing_docs)]

mod exports;
mod file;
mod frame;
mod message;
mod parts;
mod run;
mod why;

pub use file::{workload, write, STEPS, WRITE_STACK_BYTES};
pub use frame::{decode, encode, FRAME_BYTES};
pub use message::{Kind, Message};
pub use parts::{Setup, Step, OBJECTS, SETUP_BYTES, STEP_BYTES};
pub use run::{list, FILE_BYTES, LISTING_BYTES, LIST_STACK_BYTES};
pub use why::{why, Reason, Why, WHY_STACK_BYTES};

/// A call was refused; it changed nothing.
#[derive(Clone, Copy, Debug, PartialEq, Eq)]
pub struct Refused {
    /// The number of the question in documents 01 and 02 that was answered
    /// "no".
    pub number: u8,
}
