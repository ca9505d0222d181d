//! The ledger's own arithmetic on whole numbers.
//!
//! The paper's numbers are unlimited. 128 bits are as good for a ledger that stops
//! at the first result outside the limits: what it keeps is always within 40 bits
//! (it starts from an accepted state), and one operation makes at most 2^39 x 2^16
//! plus a product below 2^34 out of that, far below 2^127. Factors and products
//! are never larger; all else is for either kind of whole numbers.

use crate::mode::Mode;
use crate::operation::Target;
use crate::whole::Whole;
use crate::words::Reading;

/// A word as a whole number.
pub fn factor(word: u16, reading: Reading) -> i128 {
    let number = i128::from(word);
    if reading == Reading::Signed && number >= 32_768 {
        number - 65_536
    } else {
        number
    }
}

/// m x n by US and IF.
pub fn product(m: u16, n: u16, mode: Mode) -> i128 {
    let times = if mode.doubles() { 2 } else { 1 };
    times * factor(m, mode.reading()) * factor(n, mode.reading())
}

/// v / 2^n with its floor, or v x 2^-n.
pub fn scaled<N: Whole>(value: &N, by: i32) -> N {
    let power = by.unsigned_abs();
    if by > 0 {
        value.floor_power(power)
    } else {
        value.times_power(power)
    }
}

/// Whether a number is one of so many bits, read as signed.
fn fits<N: Whole>(value: &N, bits: u32) -> bool {
    let half = N::from(2_i128.pow(bits - 1));
    -half.clone() <= *value && *value < half
}

/// The low bits of a number, read as signed.
pub fn low_bits<N: Whole>(value: &N, bits: u32) -> i128 {
    let low = i128::from(value.modulo_power(bits));
    if low < 2_i128.pow(bits - 1) {
        low
    } else {
        low - 2_i128.pow(bits)
    }
}

/// Whether an exact result is within the limits of its accumulator.
pub fn within_limits<N: Whole>(exact: &N, mode: Mode, target: Target) -> bool {
    let narrow = mode.saturates(target) && !mode.wide_saturation();
    fits(exact, if narrow { 32 } else { 40 })
}

/// The O flag.
pub fn overflows<N: Whole>(value: &N) -> bool {
    !fits(value, 32)
}

/// The store's result before SATDW.
pub fn stored<N: Whole>(value: &N, is_rounded: bool, mode: Mode) -> N {
    let quotient = value.floor_power(16);
    let is_odd = quotient.modulo_power(1) == 1;
    let up = match value.modulo_power(16).cmp(&32_768) {
        std::cmp::Ordering::Less => false,
        std::cmp::Ordering::Equal => mode.ties_up() || is_odd,
        std::cmp::Ordering::Greater => true,
    };
    quotient + N::from(i128::from(is_rounded && up))
}

/// Whether limiting was needed; SATDW has no say in it.
pub fn needs_limiting<N: Whole>(result: &N) -> bool {
    !fits(result, 16)
}

/// The stored word, read as signed.
pub fn word<N: Whole>(result: &N, mode: Mode) -> i128 {
    if mode.limits_stores() {
        let limited = result.clone().clamp(N::from(-32_768), N::from(32_767));
        low_bits(&limited, 16)
    } else {
        low_bits(result, 16)
    }
}
