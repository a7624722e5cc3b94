//! Program `day` of document 01: reads a book from standard input, runs it
//! and prints the day.

#![forbid(unsafe_code)]

use std::io::{self, Read, Write};

use reference::book::LONGEST;

fn main() -> io::Result<()> {
    // One byte past the longest book shows that the input is too long.
    let most = u64::try_from(LONGEST + 1).unwrap_or(u64::MAX);
    let mut bytes = Vec::new();
    io::stdin().lock().take(most).read_to_end(&mut bytes)?;
    io::stdout()
        .lock()
        .write_all(reference::day(&bytes).as_bytes())
}
