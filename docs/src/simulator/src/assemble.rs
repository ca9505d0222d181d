//! The assembler: a text of operations as hex digits to a program file.
//!
//! A line holds an operation's 8 bytes, two upper-case hex digits each, parted
//! by single spaces, or nothing; spaces may follow, and then a comment from `#`.

use std::fmt;
use std::io::{self, Read};

use crate::decode::LENGTH;
use crate::file::{file_length, write};

/// The longest text.
pub const MOST: usize = 65_536;
/// The characters of an operation: the digits and the spaces between.
const WIDTH: usize = 3 * LENGTH - 1;

/// Why there is no program file.
#[derive(Clone, Copy, Debug, PartialEq, Eq)]
pub enum NoFile {
    BadText,
    /// The writer's number.
    Refused(u8),
}

impl fmt::Display for NoFile {
    fn fmt(&self, f: &mut fmt::Formatter) -> fmt::Result {
        match self {
            NoFile::BadText => write!(f, "badtext"),
            NoFile::Refused(number) => write!(f, "refused{number}"),
        }
    }
}

/// The program file of a text.
pub fn assemble_text(text: &[u8]) -> Result<Vec<u8>, NoFile> {
    let operations = operations_of(text).ok_or(NoFile::BadText)?;
    let mut file = vec![0; file_length(operations.len() / LENGTH)];
    write(&operations, &mut file).map_err(NoFile::Refused)?;
    Ok(file)
}

/// Read at most one byte more than the longest text: that much is bad.
pub fn assemble(input: impl Read) -> io::Result<Result<Vec<u8>, NoFile>> {
    let mut text = Vec::new();
    input.take(MOST as u64 + 1).read_to_end(&mut text)?;
    Ok(assemble_text(&text))
}

/// The operations of a text as bytes, 8 each, in order; nothing where the text
/// is too long or holds anything else.
pub fn operations_of(text: &[u8]) -> Option<Vec<u8>> {
    if text.len() > MOST {
        return None;
    }
    let mut operations = Vec::new();
    for line in text.split(|&byte| byte == b'\n') {
        let held = without_comment(line);
        if !held.is_empty() {
            operations.extend(operation_of(held)?);
        }
    }
    Some(operations)
}

/// A line up to its comment, without the spaces before that.
fn without_comment(line: &[u8]) -> &[u8] {
    let end = line.iter().position(|&byte| byte == b'#');
    let held = &line[..end.unwrap_or(line.len())];
    let last = held.iter().rposition(|&byte| byte != b' ');
    &held[..last.map_or(0, |last| last + 1)]
}

/// An operation's bytes b0..b7.
fn operation_of(held: &[u8]) -> Option<[u8; LENGTH]> {
    if held.len() != WIDTH {
        return None;
    }
    let mut operation = [0; LENGTH];
    for (place, byte) in operation.iter_mut().enumerate() {
        let at = 3 * place;
        *byte = 16 * digit(held[at])? + digit(held[at + 1])?;
        if held.get(at + 2).is_some_and(|&after| after != b' ') {
            return None;
        }
    }
    Some(operation)
}

fn digit(character: u8) -> Option<u8> {
    match character {
        b'0'..=b'9' => Some(character - b'0'),
        b'A'..=b'F' => Some(character - b'A' + 10),
        _ => None,
    }
}
