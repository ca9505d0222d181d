//! "Accumulator rules": product, limits, kept value, flags, shift, store.
//! Every exact result here is below 2^57 in size, so 64 bits hold it.

use crate::mode::Mode;
use crate::operation::Target;
use crate::words::{low_16, read, signed_40, Reading};

/// p = m x n, each factor with its own reading; doubled with IF 0.
pub fn product(m: u16, m_reading: Reading, n: u16, n_reading: Reading, doubled: bool) -> i64 {
    let exact = read(m, m_reading) * read(n, n_reading);
    if doubled {
        2 * exact
    } else {
        exact
    }
}

/// The product by the mode word: US reads both factors alike.
pub fn product_by_mode(m: u16, n: u16, mode: Mode) -> i64 {
    product(m, mode.reading(), n, mode.reading(), mode.doubles())
}

/// The smallest and largest number of `bits` bits, two's complement.
const fn signed_range(bits: u32) -> (i64, i64) {
    (-(1 << (bits - 1)), (1 << (bits - 1)) - 1)
}

pub const NARROW: (i64, i64) = signed_range(32);
pub const WIDE: (i64, i64) = signed_range(40);

/// "Limits: with that accumulator's saturation on and ACCSAT 0, -2^31..2^31-1;
/// otherwise -2^39..2^39-1."
pub fn limits(mode: Mode, target: Target) -> (i64, i64) {
    if mode.saturates(target) && !mode.wide_saturation() {
        NARROW
    } else {
        WIDE
    }
}

/// What an accumulator write leaves behind.
#[derive(Clone, Copy, Debug, PartialEq, Eq)]
pub struct Kept {
    pub value: i64,
    /// The exact result was outside the limits: the S flag is set.
    pub left: bool,
    /// The O flag: the kept value is outside -2^31..2^31-1.
    pub overflow: bool,
}

/// Keep an exact result: itself within the limits, outside them the nearer
/// limit (saturation on) or the low 40 bits read as signed (off).
pub fn keep(exact: i64, mode: Mode, target: Target) -> Kept {
    let (low, high) = limits(mode, target);
    let left = exact < low || exact > high;
    let value = if !left {
        exact
    } else if mode.saturates(target) {
        exact.clamp(low, high)
    } else {
        signed_40(exact)
    };
    Kept {
        value,
        left,
        overflow: value < NARROW.0 || value > NARROW.1,
    }
}

/// "Shift by n: positive is floor of v / 2^n, negative is v x 2^-n."
/// The arithmetic right shift is the floor.
pub fn shift(value: i64, by: i64) -> i64 {
    if by >= 0 {
        value >> by
    } else {
        value * (1 << -by)
    }
}

/// Truncated store: floor of v / 65,536, before SATDW.
pub fn truncated(value: i64) -> i64 {
    value >> 16
}

/// Rounded store, before SATDW: up above half; at half up with RND 1, and with
/// RND 0 only from an odd quotient.
pub fn rounded(value: i64, mode: Mode) -> i64 {
    let quotient = value >> 16;
    let remainder = value & 0xFFFF;
    let tie_goes_up = mode.ties_up() || quotient & 1 == 1;
    if remainder > 0x8000 || (remainder == 0x8000 && tie_goes_up) {
        quotient + 1
    } else {
        quotient
    }
}

/// "SATDW then limits to -32,768..32,767; without it the low 16 bits are kept."
pub fn store_word(result: i64, mode: Mode) -> u16 {
    if mode.limits_stores() {
        low_16(result.clamp(-32_768, 32_767))
    } else {
        low_16(result)
    }
}
