//! Prints what an area holds. Reads N (1 byte), S (2 bytes) and the area from standard
//! input.

use std::io::{self, Read, Write};

fn main() -> io::Result<()> {
    let mut input = Vec::new();
    io::stdin().lock().read_to_end(&mut input)?;
    io::stdout()
        .lock()
        .write_all(reference::dump(&input).as_bytes())
}
