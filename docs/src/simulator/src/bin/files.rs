//! files requests: writes the stored request stream.
//! files answers: reads a request stream, writes a line for each request.
//! files example: writes the program file of document 01's example.
//! files random SEED COUNT: writes a stream of COUNT random requests.

use std::process::ExitCode;

use simulator::command::{input, seed_and_count, write_output};
use simulator::generate::case::example;
use simulator::generate::requests::{random_requests, requests};
use simulator::requests::{answers, requests_of, stream_of};

fn main() -> ExitCode {
    write_output(output)
}

fn output(arguments: &[&str]) -> Result<Vec<u8>, String> {
    match arguments {
        ["requests"] => Ok(stream_of(&requests())),
        ["answers"] => {
            let requests = requests_of(&input()?).ok_or("standard input is no request stream")?;
            Ok(answers(&requests).into_bytes())
        }
        ["example"] => Ok(example()),
        ["random", seed, count] => {
            let (seed, count) = seed_and_count(seed, count)?;
            Ok(stream_of(&random_requests(seed, count)))
        }
        _ => Err("usage: files requests | answers | example | random SEED COUNT".to_string()),
    }
}
