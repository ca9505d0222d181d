//! Byte addresses: the words at them, and pointers after their steps.

use std::ops::Range;

use crate::machine::Trap;

/// The number of the word at an address. An odd address and one below memory give a
/// number past all words.
#[inline(always)]
pub fn word_number(address: u16) -> usize {
    usize::from(address.wrapping_sub(0x1000).rotate_right(1))
}

/// The number of the word at an address, in a region of word numbers: trap 1, then 2.
#[inline(always)]
pub fn word_within(region: Range<usize>, address: u16) -> Result<usize, Trap> {
    let number = word_number(address);
    if region.contains(&number) {
        Ok(number)
    } else if address % 2 == 1 {
        Err(Trap::OddAddress)
    } else {
        Err(Trap::OutsideRegion)
    }
}

/// A circular buffer S..E: S, and E - S.
#[derive(Clone, Copy)]
pub struct Buffer {
    start: i32,
    span: u32,
}

impl Buffer {
    /// All that a stepped address can be is inside, so that none is corrected.
    pub const NONE: Buffer = Buffer {
        start: -65_536,
        span: 262_144,
    };

    pub fn new(start: u16, end: u16) -> Buffer {
        Buffer {
            start: i32::from(start),
            span: u32::from(end.wrapping_sub(start)),
        }
    }

    #[inline(always)]
    fn contains(&self, address: i32) -> bool {
        (address - self.start) as u32 <= self.span
    }

    /// The address after a step from an old one.
    #[inline(always)]
    pub fn stepped(&self, old: u16, step: i16) -> u16 {
        let to = i32::from(old) + i32::from(step);
        if self.contains(to) {
            to as u16
        } else {
            self.corrected(old, to)
        }
    }

    /// A stepped address outside: corrected if the old one is within.
    #[cold]
    fn corrected(&self, old: u16, to: i32) -> u16 {
        let size = self.span as i32 + 1;
        if !self.contains(i32::from(old)) {
            to as u16
        } else if to < self.start {
            (to + size) as u16
        } else {
            (to - size) as u16
        }
    }
}

/// The address after one at the bit-reversed register with N words, a power of two.
pub fn next_reversed(address: u16, words: u16) -> u16 {
    let unused = 16 - words.trailing_zeros();
    let rev = |index: u16| index.reverse_bits() >> unused;
    let index = (address & (2 * words - 1)) >> 1;
    let next = rev((rev(index) + 1) & (words - 1));
    address - 2 * index + 2 * next
}
