//! Whole numbers as the ledger needs them: those of 128 bits, which are enough
//! where it stops at the limits, and those without end of `integer`.

use std::fmt::Debug;
use std::ops::{Add, Neg, Sub};

pub trait Whole:
    Clone + Debug + Ord + From<i128> + Add<Output = Self> + Sub<Output = Self> + Neg<Output = Self>
{
    /// v x 2^n.
    fn times_power(&self, n: u32) -> Self;

    /// The floor of v / 2^n.
    fn floor_power(&self, n: u32) -> Self;

    /// v modulo 2^n, for n from 0 to 64.
    fn modulo_power(&self, n: u32) -> u64;
}

/// Checked: a product past 128 bits panics.
impl Whole for i128 {
    fn times_power(&self, n: u32) -> i128 {
        self * 2_i128.pow(n)
    }

    fn floor_power(&self, n: u32) -> i128 {
        self.div_euclid(2_i128.pow(n))
    }

    fn modulo_power(&self, n: u32) -> u64 {
        self.rem_euclid(2_i128.pow(n)) as u64
    }
}
