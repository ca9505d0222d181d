//! The assembler's text, line by line.

mod common;
use common::{file_of, lit, mpy};

use simulator::assemble::{assemble, assemble_text, operations_of, NoFile, MOST};

const IDLE: &str = "10 00 00 00 00 00 00 00";

#[test]
fn a_text_is_its_operations() {
    let text = "# three\n\n10 04 03 00 00 00 00 00\n10 05 FE FF 00 00 00 00# MOV\n \
        \n02 00 54 00 00 00 00 00  # MPY # A";
    let file = file_of(&[lit(4, 3), lit(5, 0xFFFE), mpy(0, 0x54, 0, 0, 0)]);
    assert_eq!(assemble_text(text.as_bytes()), Ok(file));
}

#[test]
fn comments_hold_any_bytes() {
    let text = [IDLE.as_bytes(), b" #\t\xFF\r\n", IDLE.as_bytes(), b"   \n"].concat();
    assert_eq!(operations_of(&text).map(|held| held.len()), Some(16));
}

#[test]
fn anything_else_is_a_bad_text() {
    for text in [
        "10 00 00 00 00 00 00",
        "10 00 00 00 00 00 00 00 00",
        " 10 00 00 00 00 00 00 00",
        "10  00 00 00 00 00 00 0",
        "10 00 00 00 00 00 00  00",
        "1 000 00 00 00 00 00 00 ",
        "10,00 00 00 00 00 00 00",
        "1000 00 00 00 00 00 00 ",
        "10 00 00 00 00 00 00 0",
        "10 00 00 00 00 00 00 0G",
        "0a 00 00 00 00 00 00 00",
        "0A 00 00 00 00 00 00 00\r",
        "0A 00 00 00 00 00 00 00\t# tab",
        "\t",
        "+1 00 00 00 00 00 00 00",
        "MAC",
    ] {
        assert_eq!(
            assemble_text(text.as_bytes()),
            Err(NoFile::BadText),
            "{text}"
        );
    }
}

/// A bad line anywhere comes before a refusal.
#[test]
fn refusals_are_the_writers() {
    let refused = |text: &str, why| assert_eq!(assemble_text(text.as_bytes()), Err(why));
    refused("", NoFile::Refused(1));
    refused("# nothing\n", NoFile::Refused(1));
    refused("1A 00 00 00 00 00 00 00", NoFile::Refused(4));
    refused("13 00 00 00 00 00 00 00", NoFile::Refused(5));
    refused("1A 00 00 00 00 00 00 00\nx", NoFile::BadText);
}

#[test]
fn a_text_has_at_most_65_536_bytes() {
    let mut text = format!("{IDLE}\n#").into_bytes();
    text.resize(MOST, b'x');
    assert_eq!(MOST, 65_536);
    assert!(assemble_text(&text).is_ok());
    assert!(assemble(text.as_slice()).unwrap().is_ok());
    text.push(b'x');
    assert_eq!(assemble_text(&text), Err(NoFile::BadText));
    assert_eq!(assemble(text.as_slice()).unwrap(), Err(NoFile::BadText));
}
