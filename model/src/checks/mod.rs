//! What model and product are checked with, apart from the model itself:
//! generated runs and calls, cases of single steps, stored examples, mistakes
//! that all of these must find, and a way to make a failing file small.

pub mod cases;
pub mod examples;
pub mod gen;
pub mod mistakes;
pub mod shrink;
pub mod until_shown;
