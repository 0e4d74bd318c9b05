//! 02, A1: how soon a client shows an object again, in the states of the
//! generated runs and in runs made by hand.

#[path = "../common/mod.rs"]
mod common;

mod cases;
mod claim;
mod followed;
mod premises;
mod trial;
