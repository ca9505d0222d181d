//! Reads a text of operations on standard input and writes its program file.

use std::io::{self, Write};
use std::process::ExitCode;

fn main() -> io::Result<ExitCode> {
    match simulator::assemble::assemble(io::stdin().lock())? {
        Ok(file) => {
            io::stdout().write_all(&file)?;
            Ok(ExitCode::SUCCESS)
        }
        Err(why) => {
            eprintln!("{why}");
            Ok(ExitCode::FAILURE)
        }
    }
}
