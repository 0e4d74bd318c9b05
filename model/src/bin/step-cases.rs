//! Prints the model's answers to the cases on standard input, and what each
//! step left.

use std::io::{self, Read};

use model::cases::lines;

fn main() -> io::Result<()> {
    let mut text = String::new();
    io::stdin().read_to_string(&mut text)?;
    print!("{}", lines(&text));
    Ok(())
}
