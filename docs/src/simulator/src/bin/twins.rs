//! Reads a case stream on standard input and writes the same runs over decoded operations,
//! a long case for each short run with a slice that fits exactly; all else is left out.

use std::io::{self, BufReader, BufWriter};

fn main() -> io::Result<()> {
    let input = BufReader::new(io::stdin().lock());
    let output = BufWriter::new(io::stdout().lock());
    simulator::generate::decoded::write_twins(input, output)
}
