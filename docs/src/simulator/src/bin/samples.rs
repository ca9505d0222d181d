//! samples NAME: reads the sample's program file, writes its case.
//! samples correlation_sum: reads the lines of the stretches, writes the case that
//! combines them.

use std::io::{self, Read, Write};
use std::process::ExitCode;

use simulator::cases::bytes_of;
use simulator::long::long_bytes;
use simulator::samples::{case_of, sum_case, NAMES, SUM};

fn main() -> io::Result<ExitCode> {
    let mut input = Vec::new();
    io::stdin().lock().read_to_end(&mut input)?;
    let name = std::env::args().nth(1).unwrap_or_default();
    let Some(case) = case_bytes(&name, &input) else {
        eprintln!("usage: samples {} | {SUM}", NAMES.join(" | "));
        return Ok(ExitCode::FAILURE);
    };
    io::stdout().write_all(&case)?;
    Ok(ExitCode::SUCCESS)
}

fn case_bytes(name: &str, input: &[u8]) -> Option<Vec<u8>> {
    if name == SUM {
        let lines = std::str::from_utf8(input).ok()?;
        return sum_case(lines).map(|case| long_bytes(&case));
    }
    case_of(name, input).map(|case| bytes_of(&case))
}
