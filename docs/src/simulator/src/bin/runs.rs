//! runs stream: writes the stored stream of runs, loads, writes and joins.
//! runs parts: writes its parts, a line each with the name and number of cases.

use std::process::ExitCode;

use simulator::command::{part_lines, write_output};
use simulator::generate::runs::{parts, stream};

fn main() -> ExitCode {
    write_output(output)
}

fn output(arguments: &[&str]) -> Result<Vec<u8>, String> {
    match arguments {
        ["stream"] => Ok(stream()),
        ["parts"] => Ok(part_lines(parts())),
        _ => Err("usage: runs stream | parts".to_string()),
    }
}
