//! What the programs share that write bytes to standard output: arguments,
//! input, exit status.

use std::io::{self, Read, Write};
use std::process::ExitCode;

/// Write what the arguments ask for; a message on standard error otherwise.
pub fn write_output(output: fn(&[&str]) -> Result<Vec<u8>, String>) -> ExitCode {
    let arguments: Vec<String> = std::env::args().skip(1).collect();
    let arguments: Vec<&str> = arguments.iter().map(String::as_str).collect();
    exit_code(output(&arguments).and_then(|bytes| {
        let written = io::stdout().write_all(&bytes);
        written.map_err(|error| error.to_string())
    }))
}

pub fn exit_code(done: Result<(), String>) -> ExitCode {
    match done {
        Ok(()) => ExitCode::SUCCESS,
        Err(message) => {
            eprintln!("{message}");
            ExitCode::FAILURE
        }
    }
}

/// All of standard input.
pub fn input() -> Result<Vec<u8>, String> {
    let mut bytes = Vec::new();
    let read = io::stdin().lock().read_to_end(&mut bytes);
    read.map_err(|error| error.to_string())?;
    Ok(bytes)
}

/// SEED and COUNT of a stream of random cases.
pub fn seed_and_count(seed: &str, count: &str) -> Result<(u64, u16), String> {
    let seed = seed.parse().map_err(|_| "SEED is no number")?;
    let count = count.parse().map_err(|_| "COUNT is not 0..65,535")?;
    Ok((seed, count))
}

/// The parts of a stored stream, a line each with the name and its length.
pub fn part_lines<T>(parts: Vec<(&'static str, Vec<T>)>) -> Vec<u8> {
    let line = |(name, part): (&str, Vec<T>)| format!("{name} {}\n", part.len());
    let lines: String = parts.into_iter().map(line).collect();
    lines.into_bytes()
}
