//! bags stream: writes the stored stream of services.
//! bags lines: reads a stream of services, writes a line for each.
//! bags random SEED COUNT: writes a stream of COUNT random services.
//! bags parts: writes the parts of the stored stream, a line each with the name
//! and number of services.

use std::process::ExitCode;

use simulator::bags::print_lines;
use simulator::command::{input, part_lines, seed_and_count, write_output};
use simulator::generate::services::{parts, random_stream, stream};

fn main() -> ExitCode {
    write_output(output)
}

fn output(arguments: &[&str]) -> Result<Vec<u8>, String> {
    match arguments {
        ["stream"] => Ok(stream()),
        ["lines"] => {
            let mut lines = Vec::new();
            let printed = print_lines(input()?.as_slice(), &mut lines);
            printed.map_err(|error| error.to_string())?;
            Ok(lines)
        }
        ["random", seed, count] => {
            let (seed, count) = seed_and_count(seed, count)?;
            Ok(random_stream(seed, count))
        }
        ["parts"] => Ok(part_lines(parts())),
        _ => Err("usage: bags stream | lines | random SEED COUNT | parts".to_string()),
    }
}
