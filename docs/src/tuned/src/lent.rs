//! The lent slice of a run over decoded operations, as wish 10 has its words.

use crate::case::Case;
use crate::operation::operation_bytes;

/// The slice after the run: the words of each operation, then what lay there.
pub fn decoded(case: &Case) -> Vec<u16> {
    let mut slice: Vec<u16> = (0..case.lent_words()).map(|i| (i % 251) as u16).collect();
    for (words, bytes) in slice.chunks_exact_mut(16).zip(operation_bytes(case.file)) {
        words.copy_from_slice(&words_of(bytes));
    }
    slice
}

/// The 16 words of an operation.
fn words_of(bytes: &[u8]) -> [u16; 16] {
    let byte = |at: usize| u16::from(bytes[at]);
    let number = |at: usize| byte(at) | byte(at + 1) << 8;
    std::array::from_fn(|i| match i {
        0 | 1 => byte(i),
        2..10 if i % 2 == 0 => byte(1 + i / 2) & 15,
        2..10 => byte(1 + i / 2) >> 4,
        10 => byte(6),
        11 => number(2),
        12 => number(4),
        _ => 0,
    })
}
