//! tuned < STREAM: prints one line for each case of a stream, as CASES.md has it.

use std::io::{self, Read, Write};

fn main() -> io::Result<()> {
    let mut stream = Vec::new();
    io::stdin().lock().read_to_end(&mut stream)?;
    io::stdout()
        .lock()
        .write_all(tuned::lines(&stream).as_bytes())
}
