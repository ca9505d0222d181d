//! speed case NAME: writes one case of CASES.md, ten million MACs and a little over, by
//! REPEAT (`repeat`) or by loops alone (`loop`), or as many bit-reversed stores
//! (`reversed`); with `-decoded` after the name the same run over decoded operations.

use std::process::ExitCode;

use simulator::command::write_output;
use simulator::form::bytes_of;
use simulator::generate::speed::{case_of, NAMES};

fn main() -> ExitCode {
    write_output(output)
}

fn output(arguments: &[&str]) -> Result<Vec<u8>, String> {
    let case = match arguments {
        ["case", name] => case_of(name),
        _ => None,
    };
    let usage = || format!("usage: speed case {}", NAMES.join(" | "));
    case.map(|case| bytes_of(&case)).ok_or_else(usage)
}
