//! Reads a case stream on standard input and prints a line for each case.

use std::io::{self, BufReader, BufWriter};

fn main() -> io::Result<()> {
    let input = BufReader::new(io::stdin().lock());
    let output = BufWriter::new(io::stdout().lock());
    simulator::form::print_lines(input, output)
}
