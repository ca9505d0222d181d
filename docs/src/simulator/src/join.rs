//! Wish 6: two program files joined to one.

use crate::decode::LENGTH;
use crate::file::{blocks_of, check_file, file_length, MOST_OPERATIONS};
use crate::words::word_at;

/// The second's operations follow the first's, its loops' last operations moved by
/// the first's count; the number of bytes written at the start of `out`. Refused: the
/// first's 1 to 5, the second's 1 to 5, then 9, then 8.
pub fn join(first: &[u8], second: &[u8], out: &mut [u8]) -> Result<usize, u8> {
    let (mut operations, _) = check_file(first)?;
    let (following, _) = check_file(second)?;
    let count = operations.len() / LENGTH;
    let together = count + following.len() / LENGTH;
    if together > MOST_OPERATIONS {
        return Err(9);
    }
    let Some(part) = out.get_mut(..file_length(together)) else {
        return Err(8);
    };
    operations.extend(moved(&following, count as u16));
    part.copy_from_slice(&blocks_of(&operations));
    Ok(part.len())
}

/// Operations as bytes, each DO's last raised by `count`, all else as it is.
pub fn moved(operations: &[u8], count: u16) -> Vec<u8> {
    let mut operations = operations.to_vec();
    for b in operations.chunks_exact_mut(LENGTH) {
        if is_do(b) {
            let last = word_at(b, 4) + count;
            b[4..6].copy_from_slice(&last.to_le_bytes());
        }
    }
    operations
}

/// Kinds 21 and 22.
fn is_do(b: &[u8]) -> bool {
    matches!(b[0], 21 | 22)
}
