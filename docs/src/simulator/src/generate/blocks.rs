//! Refusals 1 to 4 of a file: its length, its sums, its headers, the operations
//! it holds, each wrong with all that is judged before it right.

use super::damage::repair;
use crate::encode::encode_all;
use crate::file::{blocks_of, BLOCK, FULL, MOST_OPERATIONS};
use crate::operation::Operation;

/// So many operations, no two alike: literal i to register i mod 14.
pub fn numbered(count: usize) -> Vec<u8> {
    let literal = |i| Operation::Literal((i % 14) as u8, i as u16);
    encode_all(&(0..count).map(literal).collect::<Vec<_>>())
}

/// The file of so many numbered operations.
fn file(count: usize) -> Vec<u8> {
    blocks_of(&numbered(count))
}

/// The file with bytes set, its sums as they were.
pub fn with(mut file: Vec<u8>, bytes: &[(usize, u8)]) -> Vec<u8> {
    for &(at, value) in bytes {
        file[at] = value;
    }
    file
}

/// The file with bytes set and its sums right.
pub fn with_sums(file: Vec<u8>, bytes: &[(usize, u8)]) -> Vec<u8> {
    let mut file = with(file, bytes);
    repair(&mut file);
    file
}

/// The file with the lowest bit of one byte turned.
fn turned(mut file: Vec<u8>, at: usize) -> Vec<u8> {
    file[at] ^= 1;
    file
}

/// Refusal 1: no block, not whole blocks, too many of them.
pub fn wrong_lengths() -> Vec<Vec<u8>> {
    let mut longer = file(1);
    longer.push(0);
    vec![
        Vec::new(),
        file(1)[..BLOCK - 1].to_vec(),
        longer,
        file(65 * FULL),
        file(66 * FULL),
    ]
}

/// Refusal 1 of a writer: no operation, not whole ones, too many.
pub fn wrong_operation_lengths() -> Vec<Vec<u8>> {
    vec![
        Vec::new(),
        numbered(1)[..7].to_vec(),
        numbered(2)[..9].to_vec(),
        numbered(MOST_OPERATIONS + 1),
    ]
}

/// Refusal 2.
pub fn wrong_sums() -> Vec<Vec<u8>> {
    // A zero byte, so that 3 is due too; both bytes of the sum; the first and
    // the last byte of the operations; the last byte of the block.
    let one = [3, 4, 5, 8, 23, BLOCK - 1].map(|at| turned(file(2), at));
    // The same in one of two blocks.
    let two = [15, BLOCK + 3, BLOCK + 4, BLOCK + 8, 2 * BLOCK - 1].map(|at| turned(file(64), at));
    let mut files = [one.as_slice(), two.as_slice()].concat();
    files.extend([
        counts_itself(),
        // Before block 1's header, and block 1's before block 0's operation.
        turned(with_sums(file(64), &[(BLOCK + 3, 1)]), 4),
        turned(with_sums(file(64), &[(8, 0)]), BLOCK + 4),
    ]);
    files
}

/// A sum that is right only with its own two bytes counted. The others give
/// 1 + 16 + 238 = 255, so 256 is 255 + 0 + 1.
fn counts_itself() -> Vec<u8> {
    let block = blocks_of(&encode_all(&[Operation::Literal(0, 238)]));
    with(block, &[(4, 0), (5, 1)])
}

/// Refusal 3, the sums right.
pub fn wrong_headers() -> Vec<Vec<u8>> {
    let mut files = wrong_header_bytes();
    files.extend([
        // A count of 0 where nothing stands, alone and after a full block.
        vec![0; BLOCK],
        with_sums([file(63), vec![0; BLOCK]].concat(), &[(BLOCK, 1)]),
        // Counts past the block.
        with_sums(file(63), &[(2, 64)]),
        with_sums(file(63), &[(2, 255)]),
        // Counts below the operations that are there.
        with_sums(file(2), &[(2, 1)]),
        with_sums(file(64), &[(2, 62)]),
        short_block(0),
        short_block(1),
        blocks_swapped(),
        // Before block 1's sum; before an operation of the block, of block 0.
        turned(with_sums(file(64), &[(3, 1)]), BLOCK + 4),
        with_sums(file(2), &[(3, 1), (8, 0)]),
        with_sums(file(64), &[(8, 0), (BLOCK + 3, 1)]),
    ]);
    files
}

/// One byte of a block wrong: number, zero bytes, past the operation.
fn wrong_header_bytes() -> Vec<Vec<u8>> {
    let one = [
        (0, 1),
        (1, 1),
        (3, 1),
        (6, 1),
        (7, 1),
        (16, 1),
        (BLOCK - 1, 1),
    ];
    // In block 1 of two.
    let two = [(0, 0), (0, 2), (1, 1), (7, 1), (16, 1)];
    let one = one.map(|edit| with_sums(file(1), &[edit]));
    let two = two.map(|(at, value)| with_sums(file(64), &[(BLOCK + at, value)]));
    [one.as_slice(), two.as_slice()].concat()
}

/// 62 operations and nothing past them in this block, the last but one.
fn short_block(block: usize) -> Vec<u8> {
    let mut file = file(FULL * (block + 1) + 1);
    file[BLOCK * block + 2] = 62;
    file[BLOCK * (block + 1) - 8..BLOCK * (block + 1)].fill(0);
    repair(&mut file);
    file
}

fn blocks_swapped() -> Vec<u8> {
    let mut file = file(126);
    file.rotate_left(BLOCK);
    file
}

/// Refusal 4, sums and headers right.
pub fn wrong_operations() -> Vec<Vec<u8>> {
    let past = Operation::DoLiteral { count: 0, last: 9 };
    let mut misplaced = blocks_of(&encode_all(&[past; 3]));
    misplaced[24] = 0;
    repair(&mut misplaced);
    vec![
        // A count above the operations that are there.
        with_sums(file(1), &[(2, 2)]),
        with_sums(file(64), &[(BLOCK + 2, 63)]),
        // The last operation of block 0, the first of block 1.
        with_sums(file(64), &[(BLOCK - 8, 26)]),
        with_sums(file(64), &[(BLOCK + 8, 26)]),
        // Bytes of 255: the sum goes past 65,536.
        blocks_of(&[255; 8 * FULL]),
        // Before refusal 5.
        misplaced,
    ]
}
