//! "Program file": blocks of 512 bytes, read and written.

use crate::decode::{decode_all, LENGTH};
use crate::operation::Operation;
use crate::placement::is_placed_well;
use crate::words::word_at;

pub const BLOCK: usize = 512;
pub const MOST_BLOCKS: usize = 64;
/// Operations start after the header.
const HEADER: usize = 8;
/// Operations of a full block.
pub const FULL: usize = 63;
pub const MOST_OPERATIONS: usize = MOST_BLOCKS * FULL;

/// Refusals 1 to 5 of a program file: its operations as bytes, or the number.
pub fn check_file(file: &[u8]) -> Result<(Vec<u8>, Vec<Operation>), u8> {
    let blocks = file.len() / BLOCK;
    if !file.len().is_multiple_of(BLOCK) || !(1..=MOST_BLOCKS).contains(&blocks) {
        return Err(1);
    }
    let mut bytes = Vec::new();
    for (number, block) in file.chunks_exact(BLOCK).enumerate() {
        if word_at(block, 4) != block_sum(block) {
            return Err(2);
        }
        if !header_is_good(block, number, number + 1 == blocks) {
            return Err(3);
        }
        bytes.extend_from_slice(&block[HEADER..HEADER + LENGTH * usize::from(block[2])]);
    }
    let operations = check_operations(&bytes)?;
    Ok((bytes, operations))
}

/// Refusals 4 and 5, 4 over all operations before 5.
fn check_operations(bytes: &[u8]) -> Result<Vec<Operation>, u8> {
    let Some(operations) = decode_all(bytes) else {
        return Err(4);
    };
    if !is_placed_well(&operations) {
        return Err(5);
    }
    Ok(operations)
}

/// The sum of a block's bytes modulo 65,536 with bytes 4 and 5 as 0.
pub fn block_sum(block: &[u8]) -> u16 {
    let all: u32 = block.iter().map(|&byte| u32::from(byte)).sum();
    let own = u32::from(block[4]) + u32::from(block[5]);
    ((all - own) % 65_536) as u16
}

/// Refusal 3: block number, count, zero bytes (those past the last operation
/// among them).
fn header_is_good(block: &[u8], number: usize, is_last: bool) -> bool {
    let count = usize::from(block[2]);
    let count_is_good = if is_last {
        (1..=FULL).contains(&count)
    } else {
        count == FULL
    };
    usize::from(word_at(block, 0)) == number
        && count_is_good
        && block[3] == 0
        && block[6] == 0
        && block[7] == 0
        && block[HEADER + LENGTH * count..].iter().all(|&b| b == 0)
}

/// The loader: the operations as bytes in `out`; the number of bytes.
pub fn load(file: &[u8], out: &mut [u8]) -> Result<usize, u8> {
    let (bytes, _) = check_file(file)?;
    let Some(part) = out.get_mut(..bytes.len()) else {
        return Err(8);
    };
    part.copy_from_slice(&bytes);
    Ok(bytes.len())
}

/// The writer: operations as bytes to a program file in `out`.
pub fn write(operations: &[u8], out: &mut [u8]) -> Result<usize, u8> {
    let count = operations.len() / LENGTH;
    if !operations.len().is_multiple_of(LENGTH) || !(1..=MOST_OPERATIONS).contains(&count) {
        return Err(1);
    }
    check_operations(operations)?;
    let Some(part) = out.get_mut(..file_length(count)) else {
        return Err(8);
    };
    fill_blocks(part, operations);
    Ok(part.len())
}

/// The bytes of a file of so many operations.
pub fn file_length(count: usize) -> usize {
    BLOCK * count.div_ceil(FULL)
}

/// The blocks of operations, good or bad and however many: nothing is refused.
pub fn blocks_of(operations: &[u8]) -> Vec<u8> {
    let mut file = vec![0; file_length(operations.len() / LENGTH)];
    fill_blocks(&mut file, operations);
    file
}

/// Fill one block's part of the output at a time.
fn fill_blocks(out: &mut [u8], operations: &[u8]) {
    let parts = operations.chunks(LENGTH * FULL);
    for (number, (block, held)) in out.chunks_exact_mut(BLOCK).zip(parts).enumerate() {
        write_block(block, number as u16, held);
    }
}

/// Fill one block's part of the output.
fn write_block(block: &mut [u8], number: u16, operations: &[u8]) {
    block.fill(0);
    block[0..2].copy_from_slice(&number.to_le_bytes());
    block[2] = (operations.len() / LENGTH) as u8;
    block[HEADER..HEADER + operations.len()].copy_from_slice(operations);
    let sum = block_sum(block);
    block[4..6].copy_from_slice(&sum.to_le_bytes());
}
