//! The files stored in crates/tally: document 01's example and its line.

mod common;
use common::*;
use simulator::generate::case::example;
use simulator::tally::tally;

#[test]
fn the_stored_input_is_the_example_encoded_and_written() {
    let ops = [lit(4, 3), lit(5, 0xFFFE), mpy(0, 0x54, 0, 0, 0)];
    assert_eq!(stored_tally("stdin"), file_of(&ops));
    assert_eq!(stored_tally("stdin"), example());
}

#[test]
fn the_stored_line_is_the_papers_and_tally_prints_it() {
    let line = stored_tally("stdout");
    assert_eq!(line, b"done 3 -12 0 0000\n");
    let printed = tally(stored_tally("stdin").as_slice()).unwrap();
    assert_eq!(printed.into_bytes(), line);
}
