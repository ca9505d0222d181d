//! Reads a program file on standard input and prints one line.

use std::io::{self, Write};

fn main() -> io::Result<()> {
    let line = simulator::tally::tally(io::stdin().lock())?;
    io::stdout().write_all(line.as_bytes())
}
