//! generate SEED COUNT STREAM_FILE LINES_FILE: writes a stream of COUNT runs, loads and
//! writes and the lines that must be printed for it.
//! generate long SEED COUNT STREAM_FILE LINES_FILE: the same of joins, runs of joined
//! files and combined boards, some of which print `short`.

use std::fs::File;
use std::io::BufWriter;
use std::process::ExitCode;

use simulator::command::exit_code;
use simulator::generate::{generate_into, long_mix, short_mix, Mix};

fn main() -> ExitCode {
    exit_code(generate())
}

fn generate() -> Result<(), String> {
    let arguments: Vec<String> = std::env::args().skip(1).collect();
    let (mix, rest): (Mix, &[String]) = match arguments.split_first() {
        Some((first, rest)) if first == "long" => (long_mix, rest),
        _ => (short_mix, &arguments),
    };
    let [seed, count, stream_file, lines_file] = rest else {
        return Err("usage: generate [long] SEED COUNT STREAM_FILE LINES_FILE".to_string());
    };
    let seed = seed.parse().map_err(|_| "SEED is no number")?;
    let count = count.parse().map_err(|_| "COUNT is no number")?;
    let (stream, lines) = (create(stream_file)?, create(lines_file)?);
    generate_into(mix, (seed, count), stream, lines).map_err(|error| error.to_string())
}

fn create(name: &str) -> Result<BufWriter<File>, String> {
    let file = File::create(name).map_err(|error| format!("{name}: {error}"))?;
    Ok(BufWriter::new(file))
}
