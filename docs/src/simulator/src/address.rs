//! "Addresses": byte addresses, word indices, regions, and pointer steps.

use crate::ending::Trap;
use crate::settings::{Circular, Settings};

/// A byte address is never taken for a word number.
#[derive(Clone, Copy, Debug, PartialEq, Eq)]
pub struct ByteAddress(pub u16);

/// A word number in the lent memory.
#[derive(Clone, Copy, Debug, PartialEq, Eq)]
pub struct WordIndex(pub usize);

/// Word 0's byte address.
pub const BASE: u16 = 0x1000;

/// Words `first` up to, not including, `end`.
#[derive(Clone, Copy, Debug, PartialEq, Eq)]
pub struct Region {
    pub first: usize,
    pub end: usize,
}

impl WordIndex {
    /// "Word i has address 1000 hex + 2i."
    pub fn byte_address(self) -> Option<ByteAddress> {
        let address = self.0.checked_mul(2)?.checked_add(usize::from(BASE))?;
        u16::try_from(address).ok().map(ByteAddress)
    }
}

impl ByteAddress {
    /// The word at this address within a region: trap 1 for an odd address,
    /// then trap 2 outside the region.
    pub fn locate(self, region: Region) -> Result<WordIndex, Trap> {
        if self.0 & 1 == 1 {
            return Err(Trap::OddAddress);
        }
        let Some(offset) = self.0.checked_sub(BASE) else {
            return Err(Trap::OutsideRegion);
        };
        let index = usize::from(offset / 2);
        if index < region.first || index >= region.end {
            return Err(Trap::OutsideRegion);
        }
        Ok(WordIndex(index))
    }
}

/// "Address sums end at 16 bits."
pub fn plain_step(old: u16, step: i16) -> u16 {
    old.wrapping_add_signed(step)
}

/// Circular buffer S..E: with the old address within, the unreduced stepped
/// address loses or gains the length once, then is reduced to 16 bits.
pub fn circular_step(old: u16, step: i16, buffer: &Circular) -> u16 {
    let (start, end) = (i32::from(buffer.start), i32::from(buffer.end));
    let from = i32::from(old);
    let mut stepped = from + i32::from(step);
    if start <= from && from <= end {
        let length = end - start + 1;
        if stepped > end {
            stepped -= length;
        } else if stepped < start {
            stepped += length;
        }
    }
    (stepped & 0xFFFF) as u16
}

/// rev: the bits of a number below N (a power of two) in reverse order.
pub fn reverse_below(number: u16, n: u16) -> u16 {
    let width = n.trailing_zeros();
    (0..width).fold(0, |reversed, bit| (reversed << 1) | ((number >> bit) & 1))
}

/// The bit-reversed next address: address - 2j + 2k.
pub fn bit_reversed_next(address: u16, n: u16) -> u16 {
    let j = (address % (2 * n)) / 2;
    let k = reverse_below((reverse_below(j, n) + 1) % n, n);
    address - 2 * j + 2 * k
}

/// A pointer change that is no Y read's: X's register is corrected.
pub fn step_outside_y(settings: &Settings, register: u8, old: u16, step: i16) -> u16 {
    if register == settings.x.register {
        circular_step(old, step, &settings.x)
    } else {
        plain_step(old, step)
    }
}

/// A Y read's pointer change: Y's register alone is corrected.
pub fn step_in_y(settings: &Settings, register: u8, old: u16, step: i16) -> u16 {
    if register == settings.y.register {
        circular_step(old, step, &settings.y)
    } else {
        plain_step(old, step)
    }
}

/// Form 2 of kinds 14, 15, 18: the bit-reversed register goes to its next
/// index in place of + 2.
pub fn step_up_after_store(settings: &Settings, register: u8, old: u16) -> u16 {
    if register == settings.reversed.register {
        bit_reversed_next(old, settings.reversed.words)
    } else {
        step_outside_y(settings, register, old, 2)
    }
}
