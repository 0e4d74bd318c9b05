//! Prints the model's listing of the run file on standard input.

use std::io::{self, IsTerminal, Read, Write};

use model::limits::FILE_BYTES;
use model::listing::listing;

fn main() -> io::Result<()> {
    let input = io::stdin().lock();
    if input.is_terminal() {
        eprintln!("roadrun-model: expected a run file on standard input, as in `< examples/0-document.run`");
    }
    // One byte past the limit is enough to see that the file is too long.
    let mut file = Vec::new();
    input.take(FILE_BYTES as u64 + 1).read_to_end(&mut file)?;
    io::stdout().lock().write_all(&listing(&file))
}
