//! steps cases: writes the stored stream of single steps.
//! steps lines: reads a stream of single steps, writes a line for each case.
//! steps random SEED COUNT: writes a stream of COUNT random single steps.

use std::process::ExitCode;

use simulator::command::{input, seed_and_count, write_output};
use simulator::generate::steps::{random_steps, steps};
use simulator::steps::{cases_of, lines, stream_of};

fn main() -> ExitCode {
    write_output(output)
}

fn output(arguments: &[&str]) -> Result<Vec<u8>, String> {
    match arguments {
        ["cases"] => Ok(stream_of(&steps())),
        ["lines"] => {
            let cases = cases_of(&input()?).ok_or("standard input is no stream of single steps")?;
            Ok(lines(&cases).into_bytes())
        }
        ["random", seed, count] => {
            let (seed, count) = seed_and_count(seed, count)?;
            Ok(stream_of(&random_steps(seed, count)))
        }
        _ => Err("usage: steps cases | lines | random SEED COUNT".to_string()),
    }
}
