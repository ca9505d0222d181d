//! The mode word (CORCON), taken apart by shifts and masks.

use crate::operation::Target;
use crate::words::Reading;

#[derive(Clone, Copy, Debug, PartialEq, Eq)]
pub struct Mode(pub u16);

impl Mode {
    /// "After reset all is zero except that the mode word is 0020 hex."
    pub const RESET: Mode = Mode(0x0020);

    /// US bit 12, SATA 7, SATB 6, SATDW 5, ACCSAT 4, RND 1, IF 0. US 2 and 3
    /// are bad, so bit 13 is not among them.
    pub const GOOD_BITS: u16 = 0x10F3;

    pub fn is_good(self) -> bool {
        self.0 & !Self::GOOD_BITS == 0
    }

    fn bit(self, number: u32) -> bool {
        (self.0 >> number) & 1 == 1
    }

    /// US: both factors signed (0) or both unsigned (1).
    pub fn reading(self) -> Reading {
        if (self.0 >> 12) & 3 == 1 {
            Reading::Unsigned
        } else {
            Reading::Signed
        }
    }

    /// SATA or SATB.
    pub fn saturates(self, target: Target) -> bool {
        match target {
            Target::A => self.bit(7),
            Target::B => self.bit(6),
        }
    }

    /// SATDW: stores are limited.
    pub fn limits_stores(self) -> bool {
        self.bit(5)
    }

    /// ACCSAT: saturation at 40 bits (1) or 32 bits (0).
    pub fn wide_saturation(self) -> bool {
        self.bit(4)
    }

    /// RND: ties go up (1) or to even (0).
    pub fn ties_up(self) -> bool {
        self.bit(1)
    }

    /// IF 0 doubles a product, IF 1 does not.
    pub fn doubles(self) -> bool {
        !self.bit(0)
    }
}
