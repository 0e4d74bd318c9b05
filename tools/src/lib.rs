//! Tools for whoever writes or reads runs: a text form of run files, a
//! listing in words, a picture over time, a program beside the model.
//!
//! All state comes from the model: the tools run it step by step and put
//! into words or lines what its tables hold before and after each step.
//! What a text expects is held to the proved library, which writes every run
//! file too.

pub mod arguments;
pub mod check;
pub mod child;
pub mod command;
pub mod compare;
pub mod difference;
pub mod explain;
pub mod input;
pub mod latest_end;
pub mod line;
pub mod listed;
pub mod names;
pub mod output;
pub mod picture;
pub mod proved;
pub mod refusals;
pub mod refused_file;
pub mod scenario;
pub mod text;
pub mod tick;
pub mod timeline;
pub mod trace;
pub mod upgrade;
pub mod vocabulary;
pub mod voice;
