//! Wish 10: an operation as 16 words, by one rule for every kind.

use crate::decode::LENGTH;
use crate::words::word_at;

/// Words of one operation.
pub const WORDS: usize = 16;

/// Words 0 and 1 are b0 and b1, words 2 to 9 the low and then the high nibble of b2 to b5
/// in turn, word 10 is b6, words 11 and 12 are the numbers in b2-3 and b4-5, words 13 to
/// 15 are 0.
pub fn sixteen(b: &[u8; LENGTH]) -> [u16; WORDS] {
    let byte = |at: usize| u16::from(b[at]);
    let low = |at| byte(at) & 15;
    let high = |at| byte(at) >> 4;
    [
        byte(0),
        byte(1),
        low(2),
        high(2),
        low(3),
        high(3),
        low(4),
        high(4),
        low(5),
        high(5),
        byte(6),
        word_at(b, 2),
        word_at(b, 4),
        0,
        0,
        0,
    ]
}

/// The words of operations as bytes, in order.
pub fn sixteen_each(bytes: &[u8]) -> Vec<u16> {
    let operations = bytes.chunks_exact(LENGTH);
    let eight = |part: &[u8]| std::array::from_fn(|at| part[at]);
    operations.flat_map(|part| sixteen(&eight(part))).collect()
}
